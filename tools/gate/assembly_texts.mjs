// Compares what the page makes of instructions without a test around them, and of loops that only wait, with what is typed in here: its words, and the test
// that its button puts into the text.
//
//     node tools/gate/assembly_texts.mjs      compares; the last line is 'N passed, M failed'
//
// tools/gate/check_site.mjs compares this too. It needs neither a browser nor the module.

import { loadModules } from "./c_programs.mjs";
import { SLOWEST, measure, runAlone } from "./typed_texts.mjs";

const PARTS = ["faults", "other_tools"];
const BEGIN = "These are instructions without a test around them";
const GUESS = "The question is a guess: change it to yours.";
const TRUE = "The question `true` asks nothing: look at the list of states, and ask what must not happen.";

// A text, how the words on it begin after `BEGIN`, and the test that is made of it, or null.
const TEXTS = [
  ["instructions below commands of gdb", "(gdb) disassemble thread1\nDump of assembler code for function thread1:\n   0x0000000000001139 <+0>:     movl   $0x1,0x2eed(%rip)        # 0x4030 <x>\n   0x0000000000001143 <+10>:    mov    0x2eeb(%rip),%eax        # 0x4034 <y>\n   0x0000000000001149 <+16>:    ret\nEnd of assembler dump.\n(gdb) disassemble thread2\nDump of assembler code for function thread2:\n   0x000000000000114a <+0>:     movl   $0x1,0x2ee0(%rip)        # 0x4034 <y>\n   0x0000000000001154 <+10>:    mov    0x2ed6(%rip),%eax        # 0x4030 <x>\n   0x000000000000115a <+16>:    ret\nEnd of assembler dump.\n(gdb) quit\n",
    ". `thread1` is P0 here, since the first thread has the number 0. A disassembly has no initial values: they are 0 here. The question is a guess",
    "X86 Mine\n{}\n P0           | P1           ;\n MOV [x],$0x1 | MOV [y],$0x1 ;\n MOV EAX,[y]  | MOV EAX,[x]  ;\nexists (0:EAX=0 /\\ 1:EAX=0)\n"],
  ["instructions below a command of a shell", "user@host:~/src$ gcc -O2 -S sb.c\nuser@host:~/src$ cat sb.s\nthread1:\n\tmovl\t$1, x(%rip)\n\tmovl\ty(%rip), %eax\n\tret\nthread2:\n\tmovl\t$1, y(%rip)\n\tmovl\tx(%rip), %eax\n\tret\nuser@host:~/src$ \n",
    ". `thread1` is P0 here, since the first thread has the number 0. The question is a guess",
    "X86 Mine\n{}\n P0          | P1          ;\n MOV [x],$1  | MOV [y],$1  ;\n MOV EAX,[y] | MOV EAX,[x] ;\nexists (0:EAX=0 /\\ 1:EAX=0)\n"],
  ["a disassembly below a short prompt", "$ objdump -d --no-show-raw-insn a.out\n\na.out:     file format elf64-x86-64\n\n0000000000001139 <thread1>:\n    1139:\tmovl   $0x1,0x2eed(%rip)        # 4030 <x>\n    1143:\tmov    0x2eeb(%rip),%eax        # 4034 <y>\n    1149:\tret\n\n000000000000114a <thread2>:\n    114a:\tmovl   $0x1,0x2ee0(%rip)        # 4034 <y>\n    1154:\tmov    0x2ed6(%rip),%eax        # 4030 <x>\n    115a:\tret\n",
    ". `thread1` is P0 here, since the first thread has the number 0. A disassembly has no initial values: they are 0 here. The question is a guess",
    "X86 Mine\n{}\n P0           | P1           ;\n MOV [x],$0x1 | MOV [y],$0x1 ;\n MOV EAX,[y]  | MOV EAX,[x]  ;\nexists (0:EAX=0 /\\ 1:EAX=0)\n"],
  ["functions without labels", "        mov     DWORD PTR x[rip], 1\n        mov     eax, DWORD PTR y[rip]\n        ret\n        mov     DWORD PTR y[rip], 1\n        mov     eax, DWORD PTR x[rip]\n        ret\n",
    ". What follows a `ret` is the next thread. The question is a guess",
    "X86 Mine\n{}\n P0          | P1          ;\n MOV [x],1   | MOV [y],1   ;\n MOV EAX,[y] | MOV EAX,[x] ;\nexists (0:EAX=0 /\\ 1:EAX=0)\n"],
  ["names of Rust with their hashes", "example::thread1::h8a2b3c4d5e6f7081:\n        mov     dword ptr [rip + example::X::h0123456789abcdef.0], 1\n        mov     eax, dword ptr [rip + example::Y::hfedcba9876543210.0]\n        ret\n\nexample::thread2::h1a2b3c4d5e6f7081:\n        mov     dword ptr [rip + example::Y::hfedcba9876543210.0], 1\n        mov     eax, dword ptr [rip + example::X::h0123456789abcdef.0]\n        ret\n",
    ". The location of `example::X::h0123456789abcdef.0` is `example__X`. The location of `example::Y::hfedcba9876543210.0` is `example__Y`. The question is a guess",
    "X86 Mine\n{}\n P0                   | P1                   ;\n MOV [example__X],1   | MOV [example__Y],1   ;\n MOV EAX,[example__Y] | MOV EAX,[example__X] ;\nexists (0:EAX=0 /\\ 1:EAX=0)\n"],
  ["names of Rust as its compiler writes them", "_ZN7example7thread117h8a2b3c4d5e6f7081E:\n        mov     dword ptr [rip + _ZN7example1X17h0123456789abcdefE], 1\n        mov     eax, dword ptr [rip + _ZN7example1Y17hfedcba9876543210E]\n        ret\n\n_ZN7example7thread217h1a2b3c4d5e6f7081E:\n        mov     dword ptr [rip + _ZN7example1Y17hfedcba9876543210E], 1\n        mov     eax, dword ptr [rip + _ZN7example1X17h0123456789abcdefE]\n        ret\n",
    ". The location of `_ZN7example1X17h0123456789abcdefE` is `example__X`. The location of `_ZN7example1Y17hfedcba9876543210E` is `example__Y`. The question is a guess",
    "X86 Mine\n{}\n P0                   | P1                   ;\n MOV [example__X],1   | MOV [example__Y],1   ;\n MOV EAX,[example__Y] | MOV EAX,[example__X] ;\nexists (0:EAX=0 /\\ 1:EAX=0)\n"],
  ["two names of Rust that only their hashes tell apart", "a:\n        mov     dword ptr [rip + example::X::h0123456789abcdef], 1\n        mov     eax, dword ptr [rip + example::X::hfedcba9876543210]\n        ret\n",
    ", in which `example::X::h0123456789abcdef` and `example::X::hfedcba9876543210` would have one name.", null],
  ["a store of a number below 0", "thread1:\n        movl    $-1, x(%rip)\n        ret\nthread2:\n        movl    x(%rip), %eax\n        ret\n",
    ". `thread1` is P0 here, since the first thread has the number 0. The question is a guess: change it to yours. This is AT&T's order, with the destination last: lw has the destination first. The button changes `movl $-1, x(%rip)` to `MOV [x],$4294967295` and `movl x(%rip), %eax` to `MOV EAX,[x]`. The word `4294967295` is -1.",
    "X86 Mine\n{}\n P0                  | P1          ;\n MOV [x],$4294967295 | MOV EAX,[x] ;\nexists (1:EAX=0)\n"],
  ["a return in the middle", "P0:\n\tmov\tdword ptr [x], 1\n\tmov\teax, dword ptr [y]\n\ttest\teax, eax\n\tje\t.L2\n\tret\n.L2:\n\tmov\tdword ptr [z], 1\n\tret\n",
    `. ${TRUE}`,
    "X86 Mine\n{}\n P0 ;\n MOV [x],1 ;\n MOV EAX,[y] ;\n CMP EAX,$0 ;\n je L2 ;\n jmp END ;\n L2: MOV [z],1 ;\n END: ;\nlocations [0:EAX; x; z;]\nexists (true)\n"],
  ["a jump back to a lone return", "f:\n.L0:\n\tcmpl $0, x(%rip)\n\tjne .L3\n.L1:\n\tret\n.L3:\n\tmovl $1, y(%rip)\n\tjmp .L1\n",
    `. ${TRUE}`,
    "X86 Mine\n{}\n P0 ;\n MOV EAX,[x] ;\n CMP EAX,$0 ;\n JE END ;\n MOV [y],$1 ;\n END: ;\nlocations [y; x;]\nexists (true)\n"],
  ["a jump back to code", "P0:\n\tmovl x(%rip), %eax\n\ttestl %eax, %eax\n\tjne .L2\n.L3:\n\tmovl $1, y(%rip)\n\tret\n.L2:\n\tmovl $2, z(%rip)\n\tjmp .L3\n",
    `. ${TRUE}`,
    "X86 Mine\n{}\n P0 ;\n MOV EAX,[x] ;\n CMP EAX,$0 ;\n je L3 ;\n L2: MOV [z],$2 ;\n L3: MOV [y],$1 ;\nlocations [0:EAX; z; y;]\nexists (true)\n"],
  ["a jump back to code that a branch in it leaves", "f:\n\tmov eax, [x]\n\tcmp eax, 1\n\tje .L4\n.L2:\n\tmov [y], 1\n\tret\n.L4:\n\tmov ebx, [z]\n\tcmp ebx, 2\n\tje .L2\n\tmov [z], 3\n\tjmp .L2\n",
    `. ${TRUE}`,
    "X86 Mine\n{}\n P0 ;\n mov eax, [x] ;\n cmp eax, 1 ;\n jne L2 ;\n L4: mov ebx, [z] ;\n cmp ebx, 2 ;\n je L2 ;\n mov [z], 3 ;\n L2: mov [y], 1 ;\nlocations [0:EAX; 0:EBX; y;]\nexists (true)\n"],
  ["a loop with a pause at the end", "f:\n.L2:\n\tmov eax, [x]\n\ttest eax, eax\n\tje .L3\n\tmov [y], 1\n\tret\n.L3:\n\tpause\n\tjmp .L2\n",
    `. ${TRUE} A loop that waits is one pass here: \`0:EBX=1\` says that P0 has come to its end. The list hides other states.`,
    "X86 Mine\n(* every wait ends: 0:EBX=1 *)\n{}\n P0 ;\n MOV EAX,[x] ;\n CMP EAX,$0 ;\n JE END ;\n MOV [y],$1 ;\n MOV EBX,$1 ;\n END: ;\nlocations [0:EAX; y; 0:EBX;]\nexists (true)\n"],
  ["five functions", "a:\n mov [x],1\n ret\nb:\n mov [x],2\n ret\nc:\n mov [x],3\n ret\nd:\n mov [x],4\n ret\ne:\n mov [x],5\n ret\n",
    ", in 5 parts, as `a` and `b`: a test has four threads at most.",
    null],
  ["initial words", "f:\n        mov     DWORD PTR x[rip], 1\n        mov     eax, DWORD PTR y[rip]\n        ret\nx:\n        .long   5\ny:\n        .zero   4\n",
    `. ${GUESS}`,
    "X86 Mine\n{ x=5; }\n P0 ;\n MOV [x],1 ;\n MOV EAX,[y] ;\nlocations [x;]\nexists (0:EAX=0)\n"],
  ["initial words of NASM, with comments", "section .text\nglobal f\nf: ; the writer\n  mov dword [rel x], 1 ; store\n  mov eax, [rel y]     ; load\n  ret\nsection .data\nx: dd 0\ny: dd 7\n",
    `. ${GUESS}`,
    "X86 Mine\n{ y=7; }\n P0 ;\n MOV [x],1 ;\n MOV EAX,[y] ;\nlocations [x;]\nexists (0:EAX=7)\n"],
  ["initial words of arrays", "f:\n\tmovl $1, 4+a(%rip)\n\tmovl b+8(%rip), %eax\n\tret\ng:\n\tmovl $1, 8+b(%rip)\n\tmovl 4+a(%rip), %eax\n\tret\na:\n\t.zero 4\n\t.long 3\nb:\n\t.zero 8\n\t.long 7\n",
    `. The location of \`a+4\` is \`a_4\`. The location of \`b+8\` is \`b_8\`. ${GUESS}`,
    "X86 Mine\n{ a_4=3; b_8=7; }\n P0            | P1            ;\n MOV [a_4],$1  | MOV [b_8],$1  ;\n MOV EAX,[b_8] | MOV EAX,[a_4] ;\nexists (0:EAX=7 /\\ 1:EAX=3)\n"],
  ["an initial word of 64 bits", "f:\n movq x(%rip), %rax\n movq %rax, y(%rip)\n ret\nx:\n .quad -1\n",
    ": the initial value of `x` does not fit into the 32 bits of a word of lw.",
    null],
  ["P1 before P0", "P1:\n  mov eax,[x]\n  mov ebx,[y]\nP0:\n  mov [y],1\n  mov [x],1\n",
    `. ${GUESS}`,
    "X86 Mine\n{}\n P0        | P1          ;\n mov [y],1 | mov eax,[x] ;\n mov [x],1 | mov ebx,[y] ;\nexists (~1:EAX=0 /\\ 1:EBX=0)\n"],
  ["threads with the numbers 1 and 2", "Thread 1\nmov [x],1\nmov eax,[y]\nThread 2\nmov [y],1\nmov ebx,[x]\nexists (1:eax=0 /\\ 2:ebx=0)\n",
    ".",
    "X86 Mine\n{}\n P0          | P1          ;\n mov [x],1   | mov [y],1   ;\n mov eax,[y] | mov ebx,[x] ;\nexists (0:eax=0 /\\ 1:ebx=0)\n"],
  ["main and an initializer", "main:\n\tmovl $0, x(%rip)\n\tret\n_GLOBAL__sub_I_x:\n\tmovl $0, x(%rip)\n\tret\nf:\n\tmovl $1, x(%rip)\n\tret\ng:\n\tmovl x(%rip), %eax\n\tret\n",
    `. \`main\` and \`_GLOBAL__sub_I_x\` are left out. ${GUESS}`,
    "X86 Mine\n{}\n P0         | P1          ;\n MOV [x],$1 | MOV EAX,[x] ;\nexists (1:EAX=0)\n"],
  ["a label to which nothing jumps", "writer:\n mov [x],1\nmarker:\n mov [y],1\n ret\nreader:\n mov eax,[y]\n mov ebx,[x]\n ret\n",
    `. ${GUESS}`,
    "X86 Mine\n{}\n P0        | P1          ;\n mov [x],1 | mov eax,[y] ;\n mov [y],1 | mov ebx,[x] ;\nexists (~1:EAX=0 /\\ 1:EBX=0)\n"],
  ["comments of clang", "f:                                      # @f\n# %bb.0:\n\tmovl\t$1, x(%rip)\n\tmovl\ty(%rip), %eax\n\tretq\n                                        # -- End function\ng:                                      # @g\n# %bb.0:                                # %entry\n\tmovl\t$1, y(%rip)\n\tmovl\tx(%rip), %eax\n\tretq\n",
    `. ${GUESS}`,
    "X86 Mine\n{}\n P0          | P1          ;\n MOV [x],$1  | MOV [y],$1  ;\n MOV EAX,[y] | MOV EAX,[x] ;\nexists (0:EAX=0 /\\ 1:EAX=0)\n"],
  ["assembly in a program", "f:\n\tmovl\t$1, x(%rip)\n#APP\n# 5 \"a.c\" 1\n\tmfence\n# 0 \"\" 2\n#NO_APP\n\tmovl\ty(%rip), %eax\n\tret\n",
    `. ${GUESS}`,
    "X86 Mine\n{}\n P0 ;\n MOV [x],$1 ;\n mfence ;\n MOV EAX,[y] ;\nlocations [x;]\nexists (0:EAX=0)\n"],
  ["a lock with a semicolon", "f:\n\tlock; addl $1, x(%rip)\n\tmovl y(%rip), %eax\n\tret\n",
    `. ${GUESS}`,
    "X86 Mine\n{}\n P0 ;\n MOV EBX,$1 ;\n LOCK XADD [x],EBX ;\n MOV EAX,[y] ;\nlocations [x;]\nexists (0:EAX=0)\n"],
  ["a name that is a register of a source test", "f:\n movl %eax, r1(%rip)\n ret\n",
    `. The location of \`r1\` is \`r1_\`. ${TRUE}`,
    "X86 Mine\n{}\n P0 ;\n MOV [r1_],EAX ;\nlocations [0:EAX; r1_;]\nexists (true)\n"],
  ["a part of an array", "f:\n mov DWORD PTR x[rip+4], 1\n lock or QWORD PTR [rsp], 0\n mov eax, DWORD PTR x[rip]\n ret\n",
    `. The location of \`x+4\` is \`x_4\`. ${GUESS}`,
    "X86 Mine\n{}\n P0 ;\n MOV [x_4],1 ;\n MFENCE ;\n MOV EAX,[x] ;\nlocations [x_4;]\nexists (0:EAX=0)\n"],
  ["two variables of one name", "f:\n movl $1,a_4(%rip)\n movl 4+a(%rip),%eax\n ret\n",
    ", in which `a_4` and `a+4` would have one name.",
    null],
  ["a part of a word", "f:\n movl $1,a+2(%rip)\n movl a(%rip),%eax\n ret\n",
    ": `a+2` is in the middle of a word.",
    null],
  ["an instruction that is not rewritten", "f:\n mov [x],1\n ret\ng:\n mov ecx,[x]\n imul eax,ecx\n ret\n",
    ", of which the page does not rewrite `imul eax,ecx`.",
    null],
  ["an unknown instruction", "f:\n mov [x],1\n bsf eax,ebx\n ret\ng:\n imul eax, ebx\n ret\n",
    ", of which the page does not rewrite `bsf eax,ebx`.",
    null],
  ["code that is not optimized", "f:\n\tpushq\t%rbp\n\tmovq\t%rsp, %rbp\n\tmovl\t$1, x(%rip)\n\tmovl\ty(%rip), %eax\n\tmovl\t%eax, -4(%rbp)\n\tnop\n\tpopq\t%rbp\n\tret\n",
    "These are instructions of a compiler without optimization, which keep variables on the stack: compile with `-O2`.",
    null],
  ["optimized code with a variable on the stack", "f:\n\tmovl\t$1, -4(%rsp)\n\tmovl\tx(%rip), %eax\n\tret\n",
    ". `movl $1, -4(%rsp)` accesses the stack, which no test has.",
    null],
  ["the front of a test, and blocks", "X86 SB\n{ x=0; y=0; }\nP0:\n MOV [x],$1\n MOV EAX,[y]\nP1:\n MOV [y],$1\n MOV EAX,[x]\nexists (0:EAX=0 /\\ 1:EAX=0)\n",
    ".",
    "X86 SB\n{ x=0; y=0; }\n P0          | P1          ;\n MOV [x],$1  | MOV [y],$1  ;\n MOV EAX,[y] | MOV EAX,[x] ;\nexists (0:EAX=0 /\\ 1:EAX=0)\n"],
  ["mangled names", "_ZN1A4takeEv:\n\tmovl\t$1, _ZN1A1xE(%rip)\n\tmovl\t_ZN1A1yE(%rip), %eax\n\tret\nA::take(std::atomic<int>&):\n\tmovl\t$1, A::y(%rip)\n\tret\n",
    `. The location of \`A::y\` is \`A__y\`. ${GUESS}`,
    "X86 Mine\n{}\n P0                 | P1            ;\n MOV [_ZN1A1xE],$1  | MOV [A__y],$1 ;\n MOV EAX,[_ZN1A1yE] |               ;\nlocations [_ZN1A1xE; A__y;]\nexists (0:EAX=0)\n"],
  ["names of classes", "writer():\n        mov     DWORD PTR A::x[rip], 1\n        mov     eax, 1\n        xchg    eax, DWORD PTR flag[rip]\n        ret\nreader():\n        mov     eax, DWORD PTR flag[rip]\n        test    eax, eax\n        je      .L5\n        mov     eax, DWORD PTR A::x[rip]\n        mov     DWORD PTR r1[rip], eax\n.L5:\n        ret\nr1:\n        .long   -1\nflag:\n        .zero   4\nA::x:\n        .zero   4\n",
    `. The location of \`A::x\` is \`A__x\`. The location of \`r1\` is \`r1_\`. ${TRUE}`,
    "X86 Mine\n{ r1_=4294967295; }\n P0              | P1             ;\n MOV [A__x],1    | MOV EAX,[flag] ;\n mov eax, 1      | CMP EAX,$0     ;\n XCHG EAX,[flag] | je END         ;\n                 | MOV EAX,[A__x] ;\n                 | MOV [r1_],EAX  ;\n                 | END:           ;\nlocations [0:EAX; 1:EAX; r1_;]\nexists (true)\n"],
  ["variables of 64 bits and of 32", "f:\n movq x(%rip), %rax\n movl 4+a(%rip), %ecx\n ret\n",
    `. The location of \`a+4\` is \`a_4\`. ${GUESS}`,
    "X86 Mine\n{}\n P0 ;\n MOV EAX,[x] ;\n MOV ECX,[a_4] ;\nexists (~0:EAX=0 /\\ 0:ECX=0)\n"],
  ["P1 before P0, with parameters", "P1(std::atomic<int>&):\n mov DWORD PTR y[rip], 1\n ret\nP0(std::atomic<int>&):\n mov DWORD PTR x[rip], 1\n ret\n",
    `. ${TRUE}`,
    "X86 Mine\n{}\n P0        | P1        ;\n MOV [x],1 | MOV [y],1 ;\nlocations [x; y;]\nexists (true)\n"],
  ["two functions of which one jumps to the other", "writer:\n mov DWORD PTR x[rip], 1\n cmp eax, 1\n jne .L2\n mov DWORD PTR x[rip], 2\n.L2:\n mov eax, DWORD PTR y[rip]\n ret\nreader:\n jmp writer\n",
    `. ${GUESS}`,
    "X86 Mine\n{}\n P0              | P1              ;\n MOV [x],1       | MOV [x],1       ;\n cmp eax, 1      | cmp eax, 1      ;\n jne L2          | jne L2          ;\n MOV [x],2       | MOV [x],2       ;\n L2: MOV EAX,[y] | L2: MOV EAX,[y] ;\nlocations [x;]\nexists (0:EAX=0 /\\ 1:EAX=0)\n"],
  ["two functions of C++ of which one jumps to the other", "b():\n        jmp     a()\na():\n        mov     DWORD PTR x[rip], 1\n        mov     eax, DWORD PTR y[rip]\n        ret\n",
    `. ${GUESS}`,
    "X86 Mine\n{}\n P0          | P1          ;\n MOV [x],1   | MOV [x],1   ;\n MOV EAX,[y] | MOV EAX,[y] ;\nlocations [x;]\nexists (0:EAX=0 /\\ 1:EAX=0)\n"],
  ["a loop that a jump enters", "P0:\n jmp T\nL: pause\nT: mov eax,[x]\n cmp eax,0\n je L\nP1:\n mov [x],1\n",
    `. ${TRUE}`,
    "X86 Mine\n(* every wait ends: 0:EBX=1 *)\n{}\n P0          | P1         ;\n MOV EAX,[x] | MOV [x],$1 ;\n CMP EAX,$0  |            ;\n JE END      |            ;\n MOV EBX,$1  |            ;\n END:        |            ;\nlocations [0:EAX; 0:EBX;]\nexists (true)\n"],
  ["a label that looks like a thread", "P0:\n cmp eax,0\n je T1\n mov [x],1\nT1: mov [y],1\nP1:\n mov ebx,[y]\n",
    `. ${GUESS}`,
    "X86 Mine\n{}\n P0            | P1          ;\n cmp eax,0     | mov ebx,[y] ;\n je T1         |             ;\n mov [x],1     |             ;\n T1: mov [y],1 |             ;\nlocations [0:EAX; x;]\nexists (1:EBX=0)\n"],
  ["comments as headings", "# P0: writes\nmov [x],1\nmov [y],1\n# P1: reads\nmov eax,[y]\nmov ebx,[x]\n",
    `. ${GUESS}`,
    "X86 Mine\n{}\n P0        | P1          ;\n mov [x],1 | mov eax,[y] ;\n mov [y],1 | mov ebx,[x] ;\nexists (~1:EAX=0 /\\ 1:EBX=0)\n"],
  ["code of a library that stores an address", "f:\n movq x@GOTPCREL(%rip), %rax\n movq %rax, p(%rip)\n ret\n",
    "These are instructions of a library, which loads the address of each variable from a table: compile without `-fPIC`, or by rustc with `-C relocation-model=static`.",
    null],
  ["an address in a register", "f:\n mov eax, DWORD PTR x[rip]\n mov DWORD PTR [rdi], eax\n ret\n",
    ": `mov DWORD PTR [rdi], eax` has an address in a register, and lw has locations by their names only.",
    null],
  ["an address in a register beside the name of another variable", "P0:\n lea rax, [rip + x]\n mov dword ptr y[rax], 1\n ret\nP1:\n mov eax, dword ptr [rip + x]\n ret\n",
    ": `mov dword ptr y[rax], 1` has an address in a register, and lw has locations by their names only.",
    null],
  ["no instructions", "hello my world\nand so on, and so on\n",
    "`hello` is not expected here. A test is `SRC` or `X86` and a name, the initial values in `{ }`, the row `P0 | P1 ;`, the rows of code, and a question.",
    null],
  ["code above the first name", "mov [x],1\nP1:\nmov eax,[x]\n",
    `. ${GUESS}`,
    "X86 Mine\n{}\n P0        | P1          ;\n mov [x],1 | mov eax,[x] ;\nexists (1:EAX=0)\n"],
  ["a listing of MSVC with types before names", "volatile int x DD 00H                                       ; x\nvolatile int y DD 00H                                       ; y\nint r1 DD 00H                                          ; r1\nint r2 DD 00H                                          ; r2\n\nvoid thread0(void) PROC                                 ; thread0, COMDAT\n        mov     DWORD PTR volatile int x, 1        ; x\n        mov     eax, DWORD PTR volatile int y  ; y\n        mov     DWORD PTR int r1, eax           ; r1\n        ret     0\nvoid thread0(void) ENDP                                 ; thread0\n\nvoid thread1(void) PROC                                 ; thread1, COMDAT\n        mov     DWORD PTR volatile int y, 1        ; y\n        mov     eax, DWORD PTR volatile int x   ; x\n        mov     DWORD PTR int r2, eax           ; r2\n        ret     0\nvoid thread1(void) ENDP                                 ; thread1\n",
    `. The location of \`r1\` is \`r1_\`. The location of \`r2\` is \`r2_\`. ${GUESS}`,
    "X86 Mine\n{}\n P0            | P1            ;\n MOV [x],1     | MOV [y],1     ;\n MOV EAX,[y]   | MOV EAX,[x]   ;\n MOV [r1_],EAX | MOV [r2_],EAX ;\nexists (0:EAX=0 /\\ 1:EAX=0)\n"],
  ["a listing of MSVC with a loop and types", "int flag DD 00H                                    ; flag\nint data DD 00H                                    ; data\n\nvoid writer(void) PROC                                 ; writer, COMDAT\n        mov     DWORD PTR int data, 42             ; data\n        mov     DWORD PTR int flag, 1\n        ret     0\nvoid writer(void) ENDP                                 ; writer\n\nint reader(void) PROC                                    ; reader, COMDAT\n$LL2@reader:\n        mov     eax, DWORD PTR int flag      ; flag\n        test    eax, eax\n        je      SHORT $LL2@reader\n        mov     eax, DWORD PTR int data      ; data\n        ret     0\nint reader(void) ENDP                                    ; reader\n",
    `. ${GUESS} A loop that waits is one pass here: \`1:EBX=1\` says that P1 has come to its end. The list hides other states, and the question leaves them out.`,
    "X86 Mine\n(* every wait ends: 1:EBX=1 *)\n{}\n P0             | P1             ;\n MOV [data],$42 | MOV EAX,[flag] ;\n MOV [flag],$1  | CMP EAX,$0     ;\n                | JE END         ;\n                | MOV EAX,[data] ;\n                | MOV EBX,$1     ;\n                | END:           ;\nexists (1:EBX=1 /\\ 1:EAX=0)\n"],
  ["a listing of MSVC with classes, and an initializer", "volatile int x DD 05H                                       ; x\nint y DD 01H DUP (?)\n`dynamic initializer for 'x''(void) PROC\n mov DWORD PTR int x, 7\n ret 0\n`dynamic initializer for 'x''(void) ENDP\nvoid thread0(void) PROC                                 ; thread0, COMDAT\n        mov     eax, DWORD PTR volatile int x\n        mov     DWORD PTR int y, eax           ; r1\n        ret     0\nvoid thread0(void) ENDP                                 ; thread0\n\nvoid A::f(A *) PROC\n mov DWORD PTR volatile int x, 2\n lock xadd DWORD PTR int y, eax\n ret 0\nvoid A::f(A *) ENDP\n",
    `. \`_GLOBAL__sub_I_x\` is left out. ${TRUE}`,
    "X86 Mine\n{ x=5; }\n P0          | P1                ;\n MOV EAX,[x] | MOV [x],2         ;\n MOV [y],EAX | LOCK XADD [y],EAX ;\nlocations [0:EAX; 1:EAX;]\nexists (true)\n"],
  ["an atomic variable in a listing of MSVC", "std::atomic<int> x DD 00H DUP (?)                           ; x\nstruct std::atomic<int> y DD 01H DUP (?)                           ; y\n\nint thread0(void) PROC                                 ; thread0, COMDAT\n        mov     ecx, 1\n        xchg    DWORD PTR struct std::atomic<int> x, ecx\n        mov     eax, DWORD PTR struct std::atomic<int> y\n        ret     0\nint thread0(void) ENDP                                 ; thread0\n\nint thread1(void) PROC                                 ; thread1, COMDAT\n        mov     ecx, 1\n        xchg    DWORD PTR struct std::atomic<int> y, ecx\n        mov     eax, DWORD PTR struct std::atomic<int> x\n        ret     0\nint thread1(void) ENDP                                 ; thread1\n",
    `. ${GUESS}`,
    "X86 Mine\n{}\n P0           | P1           ;\n mov ecx, 1   | mov ecx, 1   ;\n XCHG [x],ECX | XCHG [y],ECX ;\n MOV EAX,[y]  | MOV EAX,[x]  ;\nlocations [0:ECX; 1:ECX;]\nexists (0:EAX=0 /\\ 1:EAX=0)\n"],
  ["addresses from a table", "thread0():\n        mov     rax, QWORD PTR x@GOTPCREL[rip]\n        mov     DWORD PTR [rax], 1\n        mov     rax, QWORD PTR y@GOTPCREL[rip]\n        mov     eax, DWORD PTR [rax]\n        ret\nthread1():\n        mov     rax, QWORD PTR y@GOTPCREL[rip]\n        mov     DWORD PTR [rax], 1\n        mov     rax, QWORD PTR x@GOTPCREL[rip]\n        mov     eax, DWORD PTR [rax]\n        ret\n",
    `. ${GUESS}`,
    "X86 Mine\n{}\n P0          | P1          ;\n MOV [x],1   | MOV [y],1   ;\n MOV EAX,[y] | MOV EAX,[x] ;\nexists (0:EAX=0 /\\ 1:EAX=0)\n"],
  ["addresses from a table, in AT&T's order", "thread0:\n\tmovq\tx@GOTPCREL(%rip), %rdx\n\tmovl\t$1, %eax\n\txchgl\t(%rdx), %eax\n\tmovq\ty@GOTPCREL(%rip), %rcx\n\tmovl\t(%rcx), %eax\n\tmovq\tr1@GOTPCREL(%rip), %rcx\n\tmovl\t%eax, (%rcx)\n\tret\nthread1:\n\tmovq\ty@GOTPCREL(%rip), %rdx\n\tmovl\t$1, %eax\n\txchgl\t(%rdx), %eax\n\tmovq\tx@GOTPCREL(%rip), %rcx\n\tmovl\t(%rcx), %eax\n\tmovq\tr2@GOTPCREL(%rip), %rcx\n\tmovl\t%eax, (%rcx)\n\tret\n",
    `. The location of \`r1\` is \`r1_\`. The location of \`r2\` is \`r2_\`. ${GUESS}`,
    "X86 Mine\n{}\n P0            | P1            ;\n MOV EAX,$1    | MOV EAX,$1    ;\n XCHG [x],EAX  | XCHG [y],EAX  ;\n MOV EAX,[y]   | MOV EAX,[x]   ;\n MOV [r1_],EAX | MOV [r2_],EAX ;\nlocations [r1_; r2_;]\nexists (0:EAX=0 /\\ 1:EAX=0)\n"],
  ["an address from a table before a loop", "thread0:\n        mov     rdx, QWORD PTR flag@GOTPCREL[rip]\n.L2:\n        mov     eax, DWORD PTR [rdx]\n        test    eax, eax\n        je      .L2\n        mov     rax, QWORD PTR data@GOTPCREL[rip]\n        mov     eax, DWORD PTR [rax]\n        ret\nthread1:\n        mov     rax, QWORD PTR data@GOTPCREL[rip]\n        mov     DWORD PTR [rax], 42\n        mov     rax, QWORD PTR flag@GOTPCREL[rip]\n        mov     DWORD PTR [rax], 1\n        ret\n",
    `. ${GUESS} A loop that waits is one pass here: \`0:EBX=1\` says that P0 has come to its end. The list hides other states, and the question leaves them out.`,
    "X86 Mine\n(* every wait ends: 0:EBX=1 *)\n{}\n P0             | P1             ;\n MOV EAX,[flag] | MOV [data],$42 ;\n CMP EAX,$0     | MOV [flag],$1  ;\n JE END         |                ;\n MOV EAX,[data] |                ;\n MOV EBX,$1     |                ;\n END:           |                ;\nexists (0:EBX=1 /\\ 0:EAX=0)\n"],
  ["addresses that are computed, with numbers", "thread0:\n        lea     rdx, x[rip]\n        mov     eax, 1\n        xchg    eax, DWORD PTR [rdx]\n        mov     eax, DWORD PTR [rdx+4]\n        ret\nthread1:\n        lea     rdx, [rip + x]\n        mov     eax, 1\n        xchg    eax, DWORD PTR [rdx+4]\n        mov     eax, DWORD PTR [rdx]\n        ret\n",
    `. The location of \`x+4\` is \`x_4\`. ${GUESS}`,
    "X86 Mine\n{}\n P0            | P1             ;\n mov eax, 1    | mov eax, 1     ;\n XCHG EAX,[x]  | XCHG EAX,[x_4] ;\n MOV EAX,[x_4] | MOV EAX,[x]    ;\nexists (0:EAX=0 /\\ 1:EAX=0)\n"],
  ["a compare-exchange at an address from a table", "thread0:\n\tmovq\tx@GOTPCREL(%rip), %rdx\n\tmovl\t$1, %ecx\n\txorl\t%eax, %eax\n\tlock cmpxchgl\t%ecx, (%rdx)\n\tsete\t%al\n\tmovzbl\t%al, %eax\n\tret\nthread1:\n\tmovq\tx@GOTPCREL(%rip), %rdx\n\tmovl\t$1, %ecx\n\txorl\t%eax, %eax\n\tlock cmpxchgl\t%ecx, (%rdx)\n\tsete\t%al\n\tmovzbl\t%al, %eax\n\tret\n",
    `. ${TRUE} \`lock cmpxchg\` is an \`XCHG\` here, since \`x\` only has the two words that it expects and writes.`,
    "X86 Mine\n{}\n P0           | P1           ;\n MOV ECX,$1   | MOV ECX,$1   ;\n MOV EAX,$0   | MOV EAX,$0   ;\n MOV EAX,$1   | MOV EAX,$1   ;\n XCHG [x],EAX | XCHG [x],EAX ;\n CMP EAX,$0   | CMP EAX,$0   ;\n MOV EAX,$1   | MOV EAX,$1   ;\n JE S1        | JE S1        ;\n MOV EAX,$0   | MOV EAX,$0   ;\n S1:          | S1:          ;\nlocations [0:ECX; 0:EAX; 1:ECX; 1:EAX; x;]\nexists (true)\n"],
  ["an address from a table that another one replaces", "thread0:\n        mov     rax, QWORD PTR flag@GOTPCREL[rip]\n.L2:\n        mov     edx, DWORD PTR [rax]\n        test    edx, edx\n        je      .L2\n        mov     rax, QWORD PTR data@GOTPCREL[rip]\n        mov     eax, DWORD PTR [rax]\n        ret\nthread1:\n        mov     rax, QWORD PTR data@GOTPCREL[rip]\n        mov     DWORD PTR [rax], 42\n        mov     rax, QWORD PTR flag@GOTPCREL[rip]\n        mov     DWORD PTR [rax], 1\n        ret\n",
    `These are instructions of a library, which loads the address of each variable from a table: compile without \`-fPIC\`, or by rustc with \`-C relocation-model=static\`.`,
    null],
  ["places in the program as comments", "thread0():\n        mov       DWORD PTR x[rip], 1                           #5.5\n        mov       eax, DWORD PTR y[rip]                         #6.10\n        ret                                                     #6.10\nthread1():\n        mov       DWORD PTR y[rip], 1                           #9.5\n        mov       eax, DWORD PTR x[rip]                         #10.10\n        ret                                                     #10.10\nx:\ny:\n",
    `. ${GUESS}`,
    "X86 Mine\n{}\n P0          | P1          ;\n MOV [x],1   | MOV [y],1   ;\n MOV EAX,[y] | MOV EAX,[x] ;\nexists (0:EAX=0 /\\ 1:EAX=0)\n"],
  ["words that are stored in place of results", "reader:\n        mov     eax, DWORD PTR y[rip]\n        mov     DWORD PTR out1[rip], eax\n        mov     eax, DWORD PTR x[rip]\n        mov     DWORD PTR out2[rip], eax\n        xor eax, eax\n        ret\nwriter:\n        mov     DWORD PTR x[rip], 1\n        mov     DWORD PTR y[rip], 1\n        xor eax, eax\n        ret\n",
    `. ${GUESS}`,
    "X86 Mine\n{}\n P0             | P1         ;\n MOV EAX,[y]    | MOV [x],1  ;\n MOV [out1],EAX | MOV [y],1  ;\n MOV EAX,[x]    | MOV EAX,$0 ;\n MOV [out2],EAX |            ;\n MOV EAX,$0     |            ;\nlocations [0:EAX; 1:EAX;]\nexists (~out1=0 /\\ out2=0)\n"],
  ["a lock that is tried, and an addition", "thread0():\n        mov     eax, 1\n        xchg    al, BYTE PTR lock[rip]\n        test    al, al\n        jne     .L1\n        add     DWORD PTR counter[rip], 1\n        mov     BYTE PTR lock[rip], 0\n.L1:\n        ret\nthread1():\n        mov     eax, 1\n        xchg    al, BYTE PTR lock[rip]\n        test    al, al\n        jne     .L4\n        add     DWORD PTR counter[rip], 1\n        mov     BYTE PTR lock[rip], 0\n.L4:\n        ret\n",
    `. ${GUESS} \`lock\` has 8 bits: all its values fit, so a word of lw does the same.`,
    "X86 Mine\n{}\n P0                | P1                ;\n MOV EAX,$1        | MOV EAX,$1        ;\n XCHG [lock],EAX   | XCHG [lock],EAX   ;\n CMP EAX,$0        | CMP EAX,$0        ;\n JNE END           | JNE END           ;\n MOV EBX,[counter] | MOV EBX,[counter] ;\n ADD EBX,$1        | ADD EBX,$1        ;\n MOV [counter],EBX | MOV [counter],EBX ;\n MOV [lock],$0     | MOV [lock],$0     ;\n END:              | END:              ;\nlocations [lock;]\n~exists (0:EAX=0 /\\ 1:EAX=0 /\\ counter=1)\n"],
  ["an address that only one way loads", "f:\n test esi, esi\n je .L2\n lea rdi, x[rip]\n mov DWORD PTR [rdi], 1\n ret\n.L2:\n mov DWORD PTR [rdi], 2\n ret\n",
    `: \`L2: mov DWORD PTR [rdi], 2\` has an address in a register, and lw has locations by their names only.`,
    null],
  ["an address in a branch", "f:\n mov rcx, QWORD PTR x@GOTPCREL[rip]\n mov rax, QWORD PTR y@GOTPCREL[rip]\n mov eax, DWORD PTR [rax]\n test eax, eax\n je .L2\n mov DWORD PTR [rcx], 1\n ret\n.L2:\n mov DWORD PTR [rcx], 2\n ret\ng:\n mov rax, QWORD PTR y@GOTPCREL[rip]\n mov DWORD PTR [rax], 1\n mov rax, QWORD PTR x@GOTPCREL[rip]\n mov eax, DWORD PTR [rax]\n ret\n",
    `. ${TRUE}`,
    "X86 Mine\n{}\n P0            | P1          ;\n MOV EAX,[y]   | MOV [y],1   ;\n CMP EAX,$0    | MOV EAX,[x] ;\n je L2         |             ;\n MOV [x],1     |             ;\n jmp END       |             ;\n L2: MOV [x],2 |             ;\n END:          |             ;\nlocations [0:EAX; 1:EAX;]\nexists (true)\n"],
  ["bytes at addresses from a table", "f:\n movq x@GOTPCREL(%rip), %rax\n movb $1, (%rax)\n movq y@GOTPCREL(%rip), %rax\n movzbl (%rax), %eax\n ret\ng:\n movq y@GOTPCREL(%rip), %rax\n movb $1, (%rax)\n movq x@GOTPCREL(%rip), %rax\n movzbl (%rax), %eax\n ret\n",
    `. ${GUESS} \`x\` has 8 bits: all its values fit, so a word of lw does the same.`,
    "X86 Mine\n{}\n P0          | P1          ;\n MOV [x],$1  | MOV [y],$1  ;\n MOV EAX,[y] | MOV EAX,[x] ;\nexists (0:EAX=0 /\\ 1:EAX=0)\n"],
  ["an address by its offset in a listing of MSVC", "int x DD 00H\nint y DD 00H\nvoid a(void) PROC\n lea rcx, OFFSET FLAT:int x\n mov DWORD PTR [rcx], 1\n mov eax, DWORD PTR int y\n ret 0\nvoid a(void) ENDP\nvoid b(void) PROC\n mov DWORD PTR int y, 1\n mov eax, DWORD PTR int x\n ret 0\nvoid b(void) ENDP\n",
    `. ${GUESS}`,
    "X86 Mine\n{}\n P0          | P1          ;\n MOV [x],1   | MOV [y],1   ;\n MOV EAX,[y] | MOV EAX,[x] ;\nlocations [x;]\nexists (0:EAX=0 /\\ 1:EAX=0)\n"],
  ["places on the stack in a listing of MSVC", "int x DD 00H\nx$ = 8\nvoid a(int) PROC\n mov DWORD PTR [rsp+8], ecx\n mov eax, DWORD PTR x$[rsp]\n mov DWORD PTR int x, eax\n ret 0\nvoid a(int) ENDP\n",
    `. \`mov DWORD PTR [rsp+8], ecx\` accesses the stack, which no test has.`,
    null],
  ["`main` in a listing of MSVC", "int x DD 00H\nint flag DD 00H\nmain PROC\n sub rsp, 40\n call void a(void)\n xor eax, eax\n add rsp, 40\n ret 0\nmain ENDP\nvoid a(void) PROC\n mov DWORD PTR int x, 1\n mov DWORD PTR int flag, 1\n ret 0\nvoid a(void) ENDP\nvoid b(void) PROC\n mov eax, DWORD PTR int flag\n test eax, eax\n je SHORT $LN1@b\n mov eax, DWORD PTR int x\n$LN1@b:\n ret 0\nvoid b(void) ENDP\n",
    `. \`main\` is left out. ${TRUE}`,
    "X86 Mine\n{}\n P0            | P1             ;\n MOV [x],$1    | MOV EAX,[flag] ;\n MOV [flag],$1 | CMP EAX,$0     ;\n               | JE END         ;\n               | MOV EAX,[x]    ;\n               | END:           ;\nlocations [1:EAX;]\nexists (true)\n"],
  ["an address from a table with an index", "f:\n mov rax, QWORD PTR x@GOTPCREL[rip]\n mov DWORD PTR [rax+rdi*4], 1\n ret\n",
    `These are instructions of a library, which loads the address of each variable from a table: compile without \`-fPIC\`, or by rustc with \`-C relocation-model=static\`.`,
    null],
  ["one result in two places", "f:\n mov eax, DWORD PTR x[rip]\n mov DWORD PTR a[rip], eax\n mov DWORD PTR b[rip], eax\n mov eax, DWORD PTR y[rip]\n ret\ng:\n mov DWORD PTR y[rip], 1\n mov DWORD PTR x[rip], 1\n ret\n",
    `. ${GUESS}`,
    "X86 Mine\n{}\n P0          | P1        ;\n MOV EAX,[x] | MOV [y],1 ;\n MOV [a],EAX | MOV [x],1 ;\n MOV [b],EAX |           ;\n MOV EAX,[y] |           ;\nlocations [a;]\nexists (~b=0 /\\ 0:EAX=0)\n"],
  ["one place for two results", "f:\n mov eax, DWORD PTR x[rip]\n mov DWORD PTR r[rip], eax\n mov eax, DWORD PTR y[rip]\n mov DWORD PTR r[rip], eax\n xor eax, eax\n ret\ng:\n mov DWORD PTR y[rip], 1\n mov DWORD PTR x[rip], 1\n ret\n",
    `. ${TRUE}`,
    "X86 Mine\n{}\n P0          | P1        ;\n MOV EAX,[x] | MOV [y],1 ;\n MOV [r],EAX | MOV [x],1 ;\n MOV EAX,[y] |           ;\n MOV [r],EAX |           ;\n MOV EAX,$0  |           ;\nlocations [0:EAX; r;]\nexists (true)\n"],
  ["an addition if a lock is not taken", "f:\n mov eax, 1\n xchg eax, DWORD PTR l[rip]\n test eax, eax\n je .L2\n add DWORD PTR n[rip], 1\n.L2:\n ret\ng:\n mov eax, 1\n xchg eax, DWORD PTR l[rip]\n test eax, eax\n je .L4\n add DWORD PTR n[rip], 1\n.L4:\n ret\n",
    `. ${GUESS}`,
    "X86 Mine\n{}\n P0           | P1           ;\n MOV EAX,$1   | MOV EAX,$1   ;\n XCHG [l],EAX | XCHG [l],EAX ;\n CMP EAX,$0   | CMP EAX,$0   ;\n JE END       | JE END       ;\n MOV EBX,[n]  | MOV EBX,[n]  ;\n ADD EBX,$1   | ADD EBX,$1   ;\n MOV [n],EBX  | MOV [n],EBX  ;\n END:         | END:         ;\nlocations [l;]\n~exists (0:EAX=0 /\\ 1:EAX=0 /\\ n=1)\n"],
];

// What compilers and disassemblers print, as `TEXTS`.
const COMPILED = [
  ["bytes of gcc, with a loop that waits", "writer:\n movl $1, data(%rip)\n movb $1, flag(%rip)\n ret\nreader:\n.L4:\n movzbl flag(%rip), %eax\n testb %al, %al\n je .L4\n movl data(%rip), %eax\n ret\nflag:\n .zero 1\n",
    ". The question is a guess: change it to yours. `flag` has 8 bits: all its values fit, so a word of lw does the same. A loop that waits is one pass here: `1:EBX=1` says that P1 has come to its end. The list hides other states, and the question leaves them out.",
    "X86 Mine\n(* every wait ends: 1:EBX=1 *)\n{}\n P0            | P1             ;\n MOV [data],$1 | MOV EAX,[flag] ;\n MOV [flag],$1 | CMP EAX,$0     ;\n               | JE END         ;\n               | MOV EAX,[data] ;\n               | MOV EBX,$1     ;\n               | END:           ;\nexists (1:EBX=1 /\\ 1:EAX=0)\n"],
  ["bytes of clang", "f:\n movb $1, %al\n xchgb %al, x(%rip)\n movb y(%rip), %al\n andb $1, %al\n retq\ng:\n movb $1, y(%rip)\n movzbl x(%rip), %eax\n testb $1, %al\n jne .L1\n movb $0, y(%rip)\n.L1:\n retq\n",
    ". The question `true` asks nothing: look at the list of states, and ask what must not happen. `x` has 8 bits: all its values fit, so a word of lw does the same.",
    "X86 Mine\n{}\n P0           | P1          ;\n MOV EAX,$1   | MOV [y],$1  ;\n XCHG [x],EAX | MOV EAX,[x] ;\n MOV EAX,[y]  | CMP EAX,$0  ;\n              | JNE END     ;\n              | MOV [y],$0  ;\n              | END:        ;\nlocations [0:EAX; 1:EAX;]\nexists (true)\n"],
  ["bytes in Intel's order", "f:\n mov eax, 1\n xchg al, BYTE PTR x[rip]\n cmp BYTE PTR y[rip], 0\n je .L1\n mov BYTE PTR z[rip], 2\n.L1:\n ret\ng:\n mov byte ptr [rip + y], 1\n movzx eax, byte ptr [rip + x]\n ret\nz:\n .byte 1\n",
    ". The question `true` asks nothing: look at the list of states, and ask what must not happen. `x` has 8 bits: all its values fit, so a word of lw does the same.",
    "X86 Mine\n{ z=1; }\n P0           | P1          ;\n MOV EAX,$1   | MOV [y],$1  ;\n XCHG [x],EAX | MOV EAX,[x] ;\n MOV EBX,[y]  |             ;\n CMP EBX,$0   |             ;\n JE END       |             ;\n MOV [z],$2   |             ;\n END:         |             ;\nlocations [0:EAX; 1:EAX; z;]\nexists (true)\n"],
  ["words of 16 bits", "f:\n movw $3, s(%rip)\n movswl t(%rip), %eax\n ret\ng:\n movw $65535, t(%rip)\n movzwl s(%rip), %eax\n ret\n",
    ". The question `true` asks nothing: look at the list of states, and ask what must not happen. `s` has 16 bits: all its values fit, so a word of lw does the same.",
    "X86 Mine\n{}\n P0                  | P1             ;\n MOV [s],$3          | MOV [t],$65535 ;\n MOV EAX,[t]         | MOV EAX,[s]    ;\n CMP EAX,$0          |                ;\n MOV EAX,$0          |                ;\n JE S1               |                ;\n MOV EAX,$4294967295 |                ;\n S1:                 |                ;\nlocations [0:EAX; 1:EAX;]\nexists (true)\n"],
  ["two names of a variable", "f:\n movl $1, x(%rip)\n movl y(%rip), %eax\n ret\n .set y, x\n",
    ", in which `y` is another name of a variable: write one name.",
    null],
  ["bytes of an array", "f:\n movb $1, a(%rip)\n movzbl 1+a(%rip), %eax\n ret\na:\n .byte 0, 7\n",
    ". The location of `a+1` is `a_1`. The question is a guess: change it to yours. `a` has 8 bits: all its values fit, so a word of lw does the same.",
    "X86 Mine\n{ a_1=7; }\n P0 ;\n MOV [a],$1 ;\n MOV EAX,[a_1] ;\nlocations [a;]\nexists (0:EAX=7)\n"],
  ["initial bytes of NASM", "P0:\n mov al, [x]\n mov ebx, [y]\nP1:\n mov byte [x], 0\nx: db 1\n",
    ". The question is a guess: change it to yours. `x` has 8 bits: all its values fit, so a word of lw does the same.",
    "X86 Mine\n{ x=1; }\n P0          | P1         ;\n MOV EAX,[x] | MOV [x],$0 ;\n MOV EBX,[y] |            ;\nexists (~0:EAX=1 /\\ 0:EBX=0)\n"],
  ["a spin lock of gcc", "f:\n movl $1, %edx\n.L2:\n movl %edx, %eax\n xchgl lock_(%rip), %eax\n testl %eax, %eax\n jne .L2\n addl $1, n(%rip)\n movl $0, lock_(%rip)\n ret\n",
    ". The question `true` asks nothing: look at the list of states, and ask what must not happen. A loop that waits is one pass here: `0:ECX=1` says that P0 has come to its end. The list hides other states.",
    "X86 Mine\n(* every wait ends: 0:ECX=1 *)\n{}\n P0 ;\n MOV EDX,$1 ;\n MOV EAX,EDX ;\n XCHG [lock_],EAX ;\n CMP EAX,$0 ;\n JNE END ;\n MOV EBX,[n] ;\n ADD EBX,$1 ;\n MOV [n],EBX ;\n MOV [lock_],$0 ;\n MOV ECX,$1 ;\n END: ;\nlocations [0:EDX; 0:EAX; lock_; 0:ECX;]\nexists (true)\n"],
  ["a spin lock of bytes with a pause", "f:\n movl $1, %edx\n jmp .L15\n.L16:\n rep nop\n.L15:\n movl %edx, %eax\n xchgb l(%rip), %al\n testb %al, %al\n jne .L16\n movb $0, l(%rip)\n ret\n",
    ". The question `true` asks nothing: look at the list of states, and ask what must not happen. `l` has 8 bits: all its values fit, so a word of lw does the same. A loop that waits is one pass here: `0:EBX=1` says that P0 has come to its end. The list hides other states.",
    "X86 Mine\n(* every wait ends: 0:EBX=1 *)\n{}\n P0 ;\n MOV EDX,$1 ;\n MOV EAX,EDX ;\n XCHG [l],EAX ;\n CMP EAX,$0 ;\n JNE END ;\n MOV [l],$0 ;\n MOV EBX,$1 ;\n END: ;\nlocations [0:EDX; 0:EAX; l; 0:EBX;]\nexists (true)\n"],
  ["a spin lock that tests first", "f:\n movb $1, %al\n xchgb %al, l(%rip)\n testb $1, %al\n je .L4\n.L2:\n movzbl l(%rip), %eax\n testb $1, %al\n je f\n pause\n jmp .L2\n.L4:\n incl n(%rip)\n movb $0, l(%rip)\n retq\n .globl f\n",
    ". The question `true` asks nothing: look at the list of states, and ask what must not happen. `l` has 8 bits: all its values fit, so a word of lw does the same. A loop that waits is one pass here: `0:ECX=1` says that P0 has come to its end. The list hides other states.",
    "X86 Mine\n(* every wait ends: 0:ECX=1 *)\n{}\n P0 ;\n MOV EAX,$1 ;\n XCHG [l],EAX ;\n CMP EAX,$0 ;\n JE L4 ;\n MOV EAX,[l] ;\n CMP EAX,$0 ;\n JE END ;\n JMP END ;\n L4: MOV EBX,[n] ;\n ADD EBX,$1 ;\n MOV [n],EBX ;\n MOV [l],$0 ;\n MOV ECX,$1 ;\n END: ;\nlocations [0:EAX; 0:ECX;]\nexists (true)\n"],
  ["a spin lock by a compare-exchange", "f:\n movl $1, %ecx\n.L1:\n xorl %eax, %eax\n lock cmpxchgl %ecx, l(%rip)\n jne .L1\n movl $2, n(%rip)\n movl $0, l(%rip)\n retq\ng:\n xorl %eax, %eax\n movl $1, %edx\n lock cmpxchgl %edx, l(%rip)\n sete %al\n ret\n",
    ". The question `true` asks nothing: look at the list of states, and ask what must not happen. `lock cmpxchg` is an `XCHG` here, since `l` only has the two words that it expects and writes. A loop that waits is one pass here: `0:EBX=1` says that P0 has come to its end. The list hides other states.",
    "X86 Mine\n(* every wait ends: 0:EBX=1 *)\n{}\n P0           | P1           ;\n MOV ECX,$1   | MOV EAX,$0   ;\n MOV EAX,$0   | MOV EDX,$1   ;\n MOV EAX,$1   | MOV EAX,$1   ;\n XCHG [l],EAX | XCHG [l],EAX ;\n CMP EAX,$0   | CMP EAX,$0   ;\n JNE END      | MOV EAX,$1   ;\n MOV [n],$2   | JE S1        ;\n MOV [l],$0   | MOV EAX,$0   ;\n MOV EBX,$1   | S1:          ;\n END:         |              ;\nlocations [0:ECX; 0:EAX; 1:EAX; 1:EDX; l; n; 0:EBX;]\nexists (true)\n"],
  ["conditions as words", "f:\n movl x(%rip), %ecx\n xorl %eax, %eax\n cmpl $1, %ecx\n setne %al\n leal 3(%rax,%rax), %edx\n movl %edx, y(%rip)\n testl %ecx, %ecx\n cmove %edx, %eax\n ret\n",
    ". The question `true` asks nothing: look at the list of states, and ask what must not happen.",
    "X86 Mine\n{}\n P0 ;\n MOV ECX,[x] ;\n MOV EAX,$0 ;\n CMP ECX,$1 ;\n MOV EAX,$1 ;\n JNE S1 ;\n MOV EAX,$0 ;\n S1: MOV EDX,EAX ;\n ADD EDX,EAX ;\n ADD EDX,$3 ;\n MOV [y],EDX ;\n CMP ECX,$0 ;\n JNE S2 ;\n MOV EAX,EDX ;\n S2: ;\nlocations [0:ECX; 0:EAX; 0:EDX; y;]\nexists (true)\n"],
  ["a carry", "f:\n movzbl b(%rip), %eax\n cmpb $1, %al\n sbbl %eax, %eax\n andl $2, %eax\n addl $5, %eax\n movl %eax, x(%rip)\n ret\ng:\n movb $1, b(%rip)\n ret\n",
    ". The question `true` asks nothing: look at the list of states, and ask what must not happen. `b` has 8 bits: all its values fit, so a word of lw does the same.",
    "X86 Mine\n{}\n P0                      | P1         ;\n MOV EAX,[b]             | MOV [b],$1 ;\n CMP EAX,$1              |            ;\n MOV EAX,$4294967295     |            ;\n JNE S1                  |            ;\n MOV EAX,$0              |            ;\n S1: CMP EAX,$4294967295 |            ;\n MOV EAX,$2              |            ;\n JE S2                   |            ;\n MOV EAX,$0              |            ;\n S2: ADD EAX,$5          |            ;\n MOV [x],EAX             |            ;\nlocations [0:EAX; x;]\nexists (true)\n"],
  ["a locked OR, and a test of one bit", "f:\n lock orl $1, x(%rip)\n movl s(%rip), %eax\n testb $1, %al\n jne .L1\n movl $1, y(%rip)\n.L1:\n ret\ng:\n movl $1, s(%rip)\n movl $2, s(%rip)\n ret\n",
    ". The question `true` asks nothing: look at the list of states, and ask what must not happen.",
    "X86 Mine\n{}\n P0           | P1         ;\n MOV EBX,$1   | MOV [s],$1 ;\n XCHG [x],EBX | MOV [s],$2 ;\n MOV EAX,[s]  |            ;\n CMP EAX,$1   |            ;\n JE END       |            ;\n MOV [y],$1   |            ;\n END:         |            ;\nlocations [0:EAX; x; y;]\nexists (true)\n"],
  ["a question on a byte", "X86 A\n{ x=1; 1:ECX=2; }\nP0:\n mov byte [x], 3\nP1:\n xchg cl, byte [x]\n movzx r8d, cl\nexists (1:cl=1 && 1:r8d=1)\n",
    ". `x` has 8 bits: all its values fit, so a word of lw does the same.",
    "X86 A\n{ x=1; 1:ECX=2; }\n P0         | P1           ;\n MOV [x],$3 | XCHG [x],ECX ;\n            | MOV EBX,ECX  ;\nexists (1:ECX=1 /\\ 1:EBX=1)\n"],
  ["a disassembly", "0000000000001180 <writer>:\n    1180:\tc6 05 a9 2e 00 00 01 \tmovb   $0x1,0x2ea9(%rip)        # 4030 <x>\n    1187:\t8b 05 9f 2e 00 00    \tmov    0x2e9f(%rip),%eax        # 402c <y>\n    118d:\t85 c0                \ttest   %eax,%eax\n    118f:\t74 f6                \tje     1187 <writer+0x7>\n    1191:\tc3                   \tret\n    1192:\t66 90                \txchg   %ax,%ax\n\n00000000000011a0 <reader>:\n    11a0:\tc7 05 82 2e 00 00 01 \tmovl   $0x1,0x2e82(%rip)        # 402c <y>\n    11a7:\t00 00 00 \n    11aa:\tc3                   \tret\n\n0000000000001050 <main>:\n    1050:\te8 cb ff ff ff       \tcall   1020 <pthread_create@plt>\n    1055:\tc3                   \tret\n",
    ". `main` is left out. A disassembly has no initial values: they are 0 here. The question `true` asks nothing: look at the list of states, and ask what must not happen. `x` has 8 bits: all its values fit, so a word of lw does the same. A loop that waits is one pass here: `0:EBX=1` says that P0 has come to its end. The list hides other states.",
    "X86 Mine\n(* every wait ends: 0:EBX=1 *)\n{}\n P0          | P1         ;\n MOV [x],$1  | MOV [y],$1 ;\n MOV EAX,[y] |            ;\n CMP EAX,$0  |            ;\n JE END      |            ;\n MOV EBX,$1  |            ;\n END:        |            ;\nlocations [0:EAX; x; 0:EBX;]\nexists (true)\n"],
  ["a disassembly with relocations", "0000000000000000 <f>:\n   0:\tc6 05 00 00 00 00 01 \tmovb   $0x1,0x0(%rip)        # 7 <f+0x7>\n\t\t\t2: R_X86_64_PC32\tx-0x5\n   7:\t8b 05 00 00 00 00    \tmov    0x0(%rip),%eax        # d <f+0xd>\n\t\t\t9: R_X86_64_PC32\t.bss+0x4\n   d:\tc3                   \tret\n",
    ". A disassembly has no initial values: they are 0 here. The location of `bss+8` is `bss_8`. The question is a guess: change it to yours. `x` has 8 bits: all its values fit, so a word of lw does the same.",
    "X86 Mine\n{}\n P0 ;\n MOV [x],$1 ;\n MOV EAX,[bss_8] ;\nlocations [x;]\nexists (0:EAX=0)\n"],
  ["a disassembly of gdb", "Dump of assembler code for function f:\n   0x0000000000001180 <+0>:\tmovl   $0x1,0x2ea6(%rip)        # 0x4030 <x>\n   0x000000000000118a <+10>:\tmov    0x2e9c(%rip),%eax        # 0x402c <y>\n=> 0x0000000000001190 <+16>:\tret\nEnd of assembler dump.\n",
    ". A disassembly has no initial values: they are 0 here. The question is a guess: change it to yours. This is AT&T's order, with the destination last: lw has the destination first. The button changes `movl $0x1,x(%rip)` to `MOV [x],$0x1` and `mov y(%rip),%eax` to `MOV EAX,[y]`.",
    "X86 Mine\n{}\n P0 ;\n MOV [x],$0x1 ;\n MOV EAX,[y] ;\nlocations [x;]\nexists (0:EAX=0)\n"],
  ["a listing of Microsoft", "PUBLIC\t?x@@3HC\t\t; x\n_DATA\tSEGMENT\n?x@@3HC\tDD\t05H\t\t; x\n_DATA\tENDS\n_TEXT\tSEGMENT\n?f@@YAXXZ PROC\t\t; f\n; Line 4\n\tmov\tDWORD PTR ?x@@3HC, 1\t; x\n\tmov\teax, DWORD PTR ?y@N@@3HC\t; N::y\n\tret\t0\n?f@@YAXXZ ENDP\n$LL2@g:\n?g@@YAXXZ PROC\n\tmovzx\teax, BYTE PTR ?b@@3_NC\n\ttest\tal, al\n\tje\tSHORT $LN3@g\n\tmov\tDWORD PTR ?y@N@@3HC, 1\n$LN3@g:\n\tret\t0\n?g@@YAXXZ ENDP\nEND\n",
    ". The location of `N::y` is `N__y`. The question `true` asks nothing: look at the list of states, and ask what must not happen. `b` has 8 bits: all its values fit, so a word of lw does the same.",
    "X86 Mine\n{ x=5; }\n P0             | P1            ;\n MOV [x],$1     | MOV EAX,[b]   ;\n MOV EAX,[N__y] | CMP EAX,$0    ;\n                | JE END        ;\n                | MOV [N__y],$1 ;\n                | END:          ;\nlocations [0:EAX; 1:EAX; x;]\nexists (true)\n"],
  ["threads of C++", "\t.type\tmain, @function\nmain:\n\tpushq\t%rbp\n\tcall\t_ZNSt6thread4joinEv@PLT\n\tret\n\t.type\t_ZNSt6thread11_State_implIE6_M_runEv, @function\n_ZNSt6thread11_State_implIE6_M_runEv:\n\tmovl\t$1, x(%rip)\n\tmovl\ty(%rip), %eax\n\tret\n\t.type\t_ZNSt6thread11_State_implID0Ev, @function\n_ZNSt6thread11_State_implID0Ev:\n\tjmp\t_ZdlPvm@PLT\n\t.type\tf, @function\nf:\n\tmovl\t$1, y(%rip)\n\tmovl\tx(%rip), %eax\n\tret\n",
    ". `main` and `_ZNSt6thread11_State_implID0Ev` are left out. The question is a guess: change it to yours. This is AT&T's order, with the destination last: lw has the destination first. The button changes `movl $1, x(%rip)` to `MOV [x],$1`, `movl $1, y(%rip)` to `MOV [y],$1`, and so on.",
    "X86 Mine\n{}\n P0          | P1          ;\n MOV [x],$1  | MOV [y],$1  ;\n MOV EAX,[y] | MOV EAX,[x] ;\nexists (0:EAX=0 /\\ 1:EAX=0)\n"],
  ["a register that is an argument", "f:\n movl %edi, x(%rip)\n movl x(%rip), %eax\n ret\n",
    ". The question is a guess: change it to yours. This is AT&T's order, with the destination last: lw has the destination first. The button changes `movl %edi, x(%rip)` to `MOV [x],EDI` and `movl x(%rip), %eax` to `MOV EAX,[x]`. `EDI` of P0 has no value before it is read: it is 0 here.",
    "X86 Mine\n{}\n P0 ;\n MOV [x],EDI ;\n MOV EAX,[x] ;\nlocations [0:EDI;]\nexists (0:EAX=0)\n"],
  ["store buffering whose loads are moved", "P0:\n mov dword ptr [x], 1\n mov edx, dword ptr [y]\n mov eax, edx\n ret\nP1:\n mov dword ptr [y], 1\n mov edx, dword ptr [x]\n mov eax, edx\n mov edx, 5\n ret\n",
    ". The question is a guess: change it to yours.",
    "X86 Mine\n{}\n P0           | P1           ;\n MOV [x],1    | MOV [y],1    ;\n MOV EDX,[y]  | MOV EDX,[x]  ;\n mov eax, edx | mov eax, edx ;\n              | mov edx, 5   ;\nlocations [0:EAX; 1:EDX;]\nexists (0:EDX=0 /\\ 1:EAX=0)\n"],
  ["message passing with a loop in lw's own notation", "P0:\n mov [x],1\n mov [flag],1\nP1:\nL: mov eax,[flag]\n cmp eax,0\n je L\n mov ebx,[x]\n",
    ". The question is a guess: change it to yours. A loop that waits is one pass here: `1:ECX=1` says that P1 has come to its end. The list hides other states, and the question leaves them out.",
    "X86 Mine\n(* every wait ends: 1:ECX=1 *)\n{}\n P0            | P1             ;\n MOV [x],$1    | MOV EAX,[flag] ;\n MOV [flag],$1 | CMP EAX,$0     ;\n               | JE END         ;\n               | MOV EBX,[x]    ;\n               | MOV ECX,$1     ;\n               | END:           ;\nlocations [1:EAX;]\nexists (1:ECX=1 /\\ 1:EBX=0)\n"],
  ["message passing whose first word is stored", "P0:\n movl $1, x(%rip)\n movl $1, f(%rip)\n ret\nP1:\n movl f(%rip), %eax\n movl %eax, r(%rip)\n movl x(%rip), %eax\n ret\n",
    `. ${GUESS}`,
    "X86 Mine\n{}\n P0         | P1          ;\n MOV [x],$1 | MOV EAX,[f] ;\n MOV [f],$1 | MOV [r],EAX ;\n            | MOV EAX,[x] ;\nexists (~r=0 /\\ 1:EAX=0)\n"],
  ["a branch on a load", "P0:\n movl $1, x(%rip)\n movl y(%rip), %eax\n testl %eax, %eax\n jne .L1\n movl $1, z(%rip)\n.L1:\n ret\nP1:\n movl $1, y(%rip)\n movl x(%rip), %eax\n ret\n",
    ". The question `true` asks nothing: look at the list of states, and ask what must not happen.",
    "X86 Mine\n{}\n P0          | P1          ;\n MOV [x],$1  | MOV [y],$1  ;\n MOV EAX,[y] | MOV EAX,[x] ;\n CMP EAX,$0  |             ;\n jne END     |             ;\n MOV [z],$1  |             ;\n END:        |             ;\nlocations [0:EAX; 1:EAX; z;]\nexists (true)\n"],
  ["a load of a byte whose upper part is not known", "P0:\n movb $1, x(%rip)\n movb y(%rip), %bl\nP1:\n movb $1, y(%rip)\n movzbl x(%rip), %eax\n",
    ". The question `true` asks nothing: look at the list of states, and ask what must not happen. `x` has 8 bits: all its values fit, so a word of lw does the same.",
    "X86 Mine\n{}\n P0          | P1          ;\n MOV [x],$1  | MOV [y],$1  ;\n MOV EBX,[y] | MOV EAX,[x] ;\nlocations [1:EAX;]\nexists (true)\n"],
  ["sums of two threads", "P0:\n add dword ptr [n], 1\nP1:\n mov eax, [n]\n lea eax, [rax+2]\n mov [n], eax\nn: dd 5\n",
    ". The question is a guess: change it to yours.",
    "X86 Mine\n{ n=5; }\n P0          | P1          ;\n MOV EAX,[n] | MOV EAX,[n] ;\n ADD EAX,$1  | ADD EAX,$2  ;\n MOV [n],EAX | MOV [n],EAX ;\nlocations [1:EAX;]\n~exists (~n=8)\n"],
  ["a sum and a difference, of which one is locked", "P0:\n lock inc dword ptr [n]\nP1:\n dec dword ptr [n]\n",
    ". The question is a guess: change it to yours.",
    "X86 Mine\n{}\n P0                | P1                  ;\n MOV EAX,$1        | MOV EAX,[n]         ;\n LOCK XADD [n],EAX | ADD EAX,$4294967295 ;\n                   | MOV [n],EAX         ;\n~exists (~n=0)\n"],
  ["locked sums", "P0:\n lock inc dword ptr [n]\n mov eax, [m]\nP1:\n lock add dword ptr [n], 2\n mov dword ptr [m], 1\n",
    ". The question is a guess: change it to yours.",
    "X86 Mine\n{}\n P0                | P1                ;\n MOV EBX,$1        | MOV EAX,$2        ;\n LOCK XADD [n],EBX | LOCK XADD [n],EAX ;\n MOV EAX,[m]       | MOV [m],$1        ;\nlocations [n;]\nexists (0:EAX=0)\n"],
  ["a sum that is stored twice", "P0:\n mov eax, [n]\n add eax, 1\n mov [n], eax\n add eax, 1\n mov [n], eax\nP1:\n inc dword ptr [n]\n",
    ". The question `true` asks nothing: look at the list of states, and ask what must not happen.",
    "X86 Mine\n{}\n P0          | P1          ;\n MOV EAX,[n] | MOV EAX,[n] ;\n ADD EAX,$1  | ADD EAX,$1  ;\n MOV [n],EAX | MOV [n],EAX ;\n ADD EAX,$1  |             ;\n MOV [n],EAX |             ;\nlocations [0:EAX; n;]\nexists (true)\n"],
  ["sums, and the store of a constant", "P0:\n inc dword ptr [n]\nP1:\n inc dword ptr [n]\nP2:\n mov dword ptr [n], 7\n",
    ". The question `true` asks nothing: look at the list of states, and ask what must not happen.",
    "X86 Mine\n{}\n P0          | P1          | P2         ;\n MOV EAX,[n] | MOV EAX,[n] | MOV [n],$7 ;\n ADD EAX,$1  | ADD EAX,$1  |            ;\n MOV [n],EAX | MOV [n],EAX |            ;\nlocations [n;]\nexists (true)\n"],
  ["a sum in a branch", "P0:\n inc dword ptr [n]\nP1:\n mov ecx, [y]\n cmp ecx, 0\n je L\n inc dword ptr [n]\nL: ret\n",
    ". The question `true` asks nothing: look at the list of states, and ask what must not happen.",
    "X86 Mine\n{}\n P0          | P1          ;\n MOV EAX,[n] | MOV ECX,[y] ;\n ADD EAX,$1  | CMP ECX,$0  ;\n MOV [n],EAX | JE END      ;\n             | MOV EAX,[n] ;\n             | ADD EAX,$1  ;\n             | MOV [n],EAX ;\n             | END:        ;\nlocations [1:ECX; n;]\nexists (true)\n"],
  ["spin locks of two threads", "f:\n movl $1, %edx\n.L2:\n movl %edx, %eax\n xchgl l(%rip), %eax\n testl %eax, %eax\n jne .L2\n addl $1, n(%rip)\n movl $0, l(%rip)\n ret\ng:\n movl $1, %edx\n.L5:\n movl %edx, %eax\n xchgl l(%rip), %eax\n testl %eax, %eax\n jne .L5\n addl $1, n(%rip)\n movl $0, l(%rip)\n ret\n",
    ". The question is a guess: change it to yours. A loop that waits is one pass here: `0:ECX=1` says that P0 has come to its end, `1:ECX=1` says that P1 has come to its end. The list hides other states, and the question leaves them out.",
    "X86 Mine\n(* every wait ends: 0:ECX=1 /\\ 1:ECX=1 *)\n{}\n P0           | P1           ;\n MOV EDX,$1   | MOV EDX,$1   ;\n MOV EAX,EDX  | MOV EAX,EDX  ;\n XCHG [l],EAX | XCHG [l],EAX ;\n CMP EAX,$0   | CMP EAX,$0   ;\n JNE END      | JNE END      ;\n MOV EBX,[n]  | MOV EBX,[n]  ;\n ADD EBX,$1   | ADD EBX,$1   ;\n MOV [n],EBX  | MOV [n],EBX  ;\n MOV [l],$0   | MOV [l],$0   ;\n MOV ECX,$1   | MOV ECX,$1   ;\n END:         | END:         ;\nlocations [0:EDX; 0:EAX; 1:EDX; 1:EAX; l;]\n~exists (0:ECX=1 /\\ 1:ECX=1 /\\ ~n=2)\n"],
  ["Peterson's lock without fences", "P0:\n mov [a],1\n mov [t],1\nL: mov eax,[b]\n cmp eax,0\n je C\n mov eax,[t]\n cmp eax,1\n je L\nC: inc dword ptr [n]\n mov [a],0\nP1:\n mov [b],1\n mov [t],0\nL: mov eax,[a]\n cmp eax,0\n je C\n mov eax,[t]\n cmp eax,0\n je L\nC: inc dword ptr [n]\n mov [b],0\n",
    ". The question is a guess: change it to yours. A loop that waits is one pass here: `0:ECX=1` says that P0 has come to its end, `1:ECX=1` says that P1 has come to its end. The list hides other states, and the question leaves them out.",
    "X86 Mine\n(* every wait ends: 0:ECX=1 /\\ 1:ECX=1 *)\n{}\n P0             | P1             ;\n MOV [a],$1     | MOV [b],$1     ;\n MOV [t],$1     | MOV [t],$0     ;\n MOV EAX,[b]    | MOV EAX,[a]    ;\n CMP EAX,$0     | CMP EAX,$0     ;\n JE C           | JE C           ;\n MOV EAX,[t]    | MOV EAX,[t]    ;\n CMP EAX,$1     | CMP EAX,$0     ;\n JE END         | JE END         ;\n C: MOV EBX,[n] | C: MOV EBX,[n] ;\n ADD EBX,$1     | ADD EBX,$1     ;\n MOV [n],EBX    | MOV [n],EBX    ;\n MOV [a],$0     | MOV [b],$0     ;\n MOV ECX,$1     | MOV ECX,$1     ;\n END:           | END:           ;\nlocations [0:EAX; 1:EAX; t;]\n~exists (0:ECX=1 /\\ 1:ECX=1 /\\ ~n=2)\n"],
  ["a ticket lock", "f:\n movl $1, %edx\n lock xaddl %edx, next(%rip)\n.L2:\n movl now(%rip), %eax\n cmpl %eax, %edx\n jne .L2\n addl $1, n(%rip)\n addl $1, %edx\n movl %edx, now(%rip)\n ret\ng:\n movl $1, %edx\n lock xaddl %edx, next(%rip)\n.L5:\n movl now(%rip), %eax\n cmpl %eax, %edx\n jne .L5\n addl $1, n(%rip)\n addl $1, %edx\n movl %edx, now(%rip)\n ret\n",
    ". The question is a guess: change it to yours. A loop that waits is one pass here: `0:ECX=1` says that P0 has come to its end, `1:ECX=1` says that P1 has come to its end. The list hides other states, and the question leaves them out.",
    "X86 Mine\n(* every wait ends: 0:ECX=1 /\\ 1:ECX=1 *)\n{}\n P0                   | P1                   ;\n MOV EDX,$1           | MOV EDX,$1           ;\n LOCK XADD [next],EDX | LOCK XADD [next],EDX ;\n MOV EAX,[now]        | MOV EAX,[now]        ;\n CMP EDX,EAX          | CMP EDX,EAX          ;\n JNE END              | JNE END              ;\n MOV EBX,[n]          | MOV EBX,[n]          ;\n ADD EBX,$1           | ADD EBX,$1           ;\n MOV [n],EBX          | MOV [n],EBX          ;\n ADD EDX,$1           | ADD EDX,$1           ;\n MOV [now],EDX        | MOV [now],EDX        ;\n MOV ECX,$1           | MOV ECX,$1           ;\n END:                 | END:                 ;\nlocations [0:EDX; 0:EAX; 1:EDX; 1:EAX; next; now;]\n~exists (0:ECX=1 /\\ 1:ECX=1 /\\ ~n=2)\n"],
  ["a barrier whose additions may be lost", "f:\n movl $1, x(%rip)\n incl c(%rip)\n.L2:\n movl c(%rip), %eax\n cmpl $2, %eax\n jne .L2\n movl y(%rip), %eax\n ret\ng:\n movl $1, y(%rip)\n incl c(%rip)\n.L5:\n movl c(%rip), %eax\n cmpl $2, %eax\n jne .L5\n movl x(%rip), %eax\n ret\n",
    ". The question `true` asks nothing: look at the list of states, and ask what must not happen. A loop that waits is one pass here: `0:ECX=1` says that P0 has come to its end, `1:ECX=1` says that P1 has come to its end. The list hides other states.",
    "X86 Mine\n(* every wait ends: 0:ECX=1 /\\ 1:ECX=1 *)\n{}\n P0          | P1          ;\n MOV [x],$1  | MOV [y],$1  ;\n MOV EBX,[c] | MOV EBX,[c] ;\n ADD EBX,$1  | ADD EBX,$1  ;\n MOV [c],EBX | MOV [c],EBX ;\n MOV EAX,[c] | MOV EAX,[c] ;\n CMP EAX,$2  | CMP EAX,$2  ;\n JNE END     | JNE END     ;\n MOV EAX,[y] | MOV EAX,[x] ;\n MOV ECX,$1  | MOV ECX,$1  ;\n END:        | END:        ;\nlocations [0:EAX; 1:EAX; c; 0:ECX; 1:ECX;]\nexists (true)\n"],
  ["a ticket lock that adds to both words", "f:\n movl $1, %edx\n lock xaddl %edx, next(%rip)\n.L2:\n movl now(%rip), %eax\n cmpl %eax, %edx\n jne .L2\n addl $1, n(%rip)\n addl $1, now(%rip)\n ret\ng:\n movl $1, %edx\n lock xaddl %edx, next(%rip)\n.L5:\n movl now(%rip), %eax\n cmpl %eax, %edx\n jne .L5\n addl $1, n(%rip)\n addl $1, now(%rip)\n ret\n",
    ". The question is a guess: change it to yours. A loop that waits is one pass here: `0:ECX=1` says that P0 has come to its end, `1:ECX=1` says that P1 has come to its end. The list hides other states, and the question leaves them out.",
    "X86 Mine\n(* every wait ends: 0:ECX=1 /\\ 1:ECX=1 *)\n{}\n P0                   | P1                   ;\n MOV EDX,$1           | MOV EDX,$1           ;\n LOCK XADD [next],EDX | LOCK XADD [next],EDX ;\n MOV EAX,[now]        | MOV EAX,[now]        ;\n CMP EDX,EAX          | CMP EDX,EAX          ;\n JNE END              | JNE END              ;\n MOV EBX,[n]          | MOV EBX,[n]          ;\n ADD EBX,$1           | ADD EBX,$1           ;\n MOV [n],EBX          | MOV [n],EBX          ;\n MOV EBX,[now]        | MOV EBX,[now]        ;\n ADD EBX,$1           | ADD EBX,$1           ;\n MOV [now],EBX        | MOV [now],EBX        ;\n MOV ECX,$1           | MOV ECX,$1           ;\n END:                 | END:                 ;\nlocations [0:EDX; 0:EAX; 1:EDX; 1:EAX; next; now;]\n~exists (0:ECX=1 /\\ 1:ECX=1 /\\ ~n=2)\n"],
  ["store buffering in which a locked sum loads", "f:\n movl $1, x(%rip)\n movl y(%rip), %eax\n ret\ng:\n movl $1, y(%rip)\n xorl %eax, %eax\n lock xaddl %eax, x(%rip)\n ret\n",
    `. ${TRUE}`,
    "X86 Mine\n{}\n P0          | P1                ;\n MOV [x],$1  | MOV [y],$1        ;\n MOV EAX,[y] | MOV EAX,$0        ;\n             | LOCK XADD [x],EAX ;\nlocations [0:EAX; 1:EAX; x;]\nexists (true)\n"],
  ["message passing whose stores are exchanges", "f:\n movl $1, %eax\n xchgl %eax, data(%rip)\n movl $1, %eax\n xchgl %eax, flag(%rip)\n ret\ng:\n.L2:\n movl flag(%rip), %eax\n testl %eax, %eax\n je .L2\n movl data(%rip), %eax\n ret\n",
    `. ${GUESS}`,
    "X86 Mine\n(* every wait ends: 1:EBX=1 *)\n{}\n P0              | P1             ;\n MOV EAX,$1      | MOV EAX,[flag] ;\n XCHG [data],EAX | CMP EAX,$0     ;\n MOV EAX,$1      | JE END         ;\n XCHG [flag],EAX | MOV EAX,[data] ;\n                 | MOV EBX,$1     ;\n                 | END:           ;\nlocations [0:EAX;]\nexists (1:EBX=1 /\\ 1:EAX=0)\n"],
  ["store buffering of gcc's bool", "f:\n movb $1, x(%rip)\n movzbl y(%rip), %eax\n testb %al, %al\n setne %al\n ret\ng:\n movb $1, y(%rip)\n movzbl x(%rip), %eax\n testb %al, %al\n sete %al\n ret\n",
    `. ${TRUE} \`x\` has 8 bits: all its values fit, so a word of lw does the same.`,
    "X86 Mine\n{}\n P0          | P1          ;\n MOV [x],$1  | MOV [y],$1  ;\n MOV EAX,[y] | MOV EAX,[x] ;\n CMP EAX,$0  | CMP EAX,$0  ;\n             | MOV EAX,$1  ;\n             | JE S1       ;\n             | MOV EAX,$0  ;\n             | S1:         ;\nlocations [0:EAX; 1:EAX;]\nexists (true)\n"],
  ["a truth of gcc", "f:\n movb $1, x(%rip)\n movzbl y(%rip), %eax\n testb %al, %al\n setne %al\n ret\ng:\n movb $1, y(%rip)\n movzbl x(%rip), %eax\n testb %al, %al\n setne %al\n movb $2, z(%rip)\n ret\n",
    `. ${GUESS} \`x\` has 8 bits: all its values fit, so a word of lw does the same.`,
    "X86 Mine\n{}\n P0          | P1          ;\n MOV [x],$1  | MOV [y],$1  ;\n MOV EAX,[y] | MOV EAX,[x] ;\n CMP EAX,$0  | CMP EAX,$0  ;\n             | MOV [z],$2  ;\nlocations [z;]\nexists (0:EAX=0 /\\ 1:EAX=0)\n"],
  ["addresses with a number before them", "f:\n mov eax, DWORD PTR x[rip]\n lea edx, 1[rax]\n lea ecx, -1[rdx+rax*2]\n mov DWORD PTR y[rip], ecx\n ret\n",
    `. ${GUESS}`,
    "X86 Mine\n{}\n P0 ;\n MOV EAX,[x] ;\n MOV EDX,EAX ;\n ADD EDX,$1 ;\n MOV ECX,EDX ;\n ADD ECX,EAX ;\n ADD ECX,EAX ;\n ADD ECX,$4294967295 ;\n MOV [y],ECX ;\nlocations [0:EDX; 0:ECX; y;]\nexists (0:EAX=0)\n"],
  ["an address with a name before it", "f:\n mov eax, DWORD PTR x[rip]\n lea edx, a[rax]\n mov DWORD PTR y[rip], edx\n ret\n",
    ", of which the page does not rewrite `lea edx, a[rax]`.",
    null],
  ["accesses of two sizes", "f:\n movb $1, x(%rip)\n movl x(%rip), %eax\n ret\n",
    ", of which the page does not rewrite `movl x(%rip), %eax`: a location of lw is one word, so all accesses of a variable are to have one size.",
    null],
  ["bytes that may wrap", "f:\n movb x(%rip), %al\n addb $200, %al\n movb %al, x(%rip)\n ret\ng:\n movb x(%rip), %al\n addb $200, %al\n movb %al, x(%rip)\n ret\n",
    ", of which the page does not rewrite `addb $200, %al`: the sum may not fit into the bits that it is written to: use 32.",
    null],
  ["a locked sum of bytes", "f:\n lock addb $1, x(%rip)\n ret\ng:\n movb $255, x(%rip)\n ret\n",
    ", of which the page does not rewrite `lock addb $1, x(%rip)`: the sum may not fit into the bits that it is written to: use 32.",
    null],
  ["an upper part that is not known", "f:\n movb x(%rip), %al\n movl %eax, y(%rip)\n ret\n",
    ", of which the page does not rewrite `movl %eax, y(%rip)`: it reads more bits of a register than are set before it: extend them, as by `movzx`.",
    null],
  ["an argument of a function", "f:\n movb %dil, x(%rip)\n ret\n",
    ", of which the page does not rewrite `movb %dil, x(%rip)`: `rdi` has no value before it: set it, as by `mov`.",
    null],
  ["a compare-exchange of a counter", "f:\n movl x(%rip), %eax\n.L2:\n leal 1(%rax), %ecx\n lock cmpxchgl %ecx, x(%rip)\n jne .L2\n ret\n",
    ", of which the page does not rewrite `lock cmpxchgl %ecx, x(%rip)`: lw's machine has no compare-exchange. One that expects a constant and writes another one is read, as `XCHG`, if its variable has only these two words.",
    null],
  ["a spin lock that has a third word", "f:\n.L2:\n movl $1, %eax\n xchgl l(%rip), %eax\n testl %eax, %eax\n jne .L2\n ret\ng:\n movl $2, l(%rip)\n ret\n",
    ", of which the page does not rewrite `xchgl l(%rip), %eax`: a loop that exchanges is read if its variable is only set to the constant that it writes, and to the one at which it ends.",
    null],
  ["a loop that stores", "f:\n movl $10, %ecx\n.L2:\n movl $1, x(%rip)\n decl %ecx\n jne .L2\n ret\n",
    ", of which the page does not rewrite `movl $1, x(%rip)`: lw has no loops: write the passes out.",
    null],
  ["a loop that counts", "f:\n movl $10, %ecx\n.L2:\n decl %ecx\n jne .L2\n movl $1, x(%rip)\n ret\n",
    ", of which the page does not rewrite `decl %ecx`: lw has no loops: write the passes out.",
    null],
  ["a call", "f:\n subq $8, %rsp\n movl $1, x(%rip)\n call g\n addq $8, %rsp\n ret\n",
    ", of which the page does not rewrite `call g`: a test has no calls: let the compiler inline the function, and leave out assertions, as by `-DNDEBUG`.",
    null],
  ["a jump to another function", "f:\n movl $1, x(%rip)\n jmp g\n",
    ", of which the page does not rewrite `jmp g`: a test has no calls: let the compiler inline the function, and leave out assertions, as by `-DNDEBUG`.",
    null],
  ["an object file", "0000000000000000 <f>:\n   0:\tc7 05 00 00 00 00 01 \tmovl   $0x1,0x0(%rip)        # a <f+0xa>\n   7:\t00 00 00 \n   a:\tc3                   \tret\n",
    "These are instructions of an object file, which lacks the addresses of its variables: use `objdump -dr`, or that of the linked program.",
    null],
  ["branches on the order of words", "f:\n movl x(%rip), %eax\n cmpl $3, %eax\n jg .L1\n movl $1, y(%rip)\n.L1:\n ret\ng:\n movl $2, x(%rip)\n movl $7, x(%rip)\n movl $9, x(%rip)\n ret\n",
    ", of which the page does not rewrite `jg`: lw's jumps are `JE` and `JNE`: compare with one word.",
    null],
  ["a question on more bits than are known", "P0:\n movb x(%rip), %bl\nexists (0:ebx=1)\n",
    ", of which the page does not rewrite `0:ebx`: not all of its bits are known at the end of the thread.",
    null],
  ["initial values that are not read", "X86 A\n{ x = y = 1 }\nP0:\n mov al, byte [x]\nexists (0:al=1)\n",
    ": write the initial values as `{ x=1; }`.",
    null],
  ["code of ARM", "writer:\n mov w1, 1\n str w1, [x0]\n dmb ish\n ldr w0, [x1]\n ret\n",
    "These are instructions of ARM, and lw's tests are of x86 processors: compile the program for x86-64.",
    null],
  ["code of RISC-V", "writer:\n li a4,1\n sw a4,0(a5)\n fence rw,rw\n lw a0,0(a3)\n ret\n",
    "These are instructions of RISC-V, and lw's tests are of x86 processors: compile the program for x86-64.",
    null],
  ["code of POWER", "writer:\n li 8,1\n stw 8,0(9)\n lwsync\n lwz 3,0(10)\n blr\n",
    "These are instructions of POWER, and lw's tests are of x86 processors: compile the program for x86-64.",
    null],
];

// Texts that are refused, how the words on each begin after `BEGIN`, and the row and the column of the place.
const PLACES = [
  ["a second instruction that is equal in its beginning", "f:\n\tmov ecx, [x]\n\tret\ng:\n\tmov ecx, [x]\n\timul eax, ecx\n\tret\n",
    ", of which the page does not rewrite `imul eax, ecx`.", 6, 2],
  ["the second of equal instructions", "P0:\n mov eax, 1\n neg eax\n mov [x], eax\nP1:\n mov eax, 1\n neg eax\n je L\n mov [y], eax\nL: mov [z], eax\n",
    ", of which the page does not rewrite `neg eax`.", 7, 2],
  ["a statement after others in its line", "P0: mov [x], 1; mov [y], 1\nP1: mov eax, [y]; lock; inc dword ptr [x]; imul eax, ebx ; bsf\n",
    ", of which the page does not rewrite `imul eax, ebx`.", 2, 44],
  ["an instruction after a label", "P0:\n mov [x], 1\nP1:\nL: imul eax, ecx\n jne L\n",
    ", of which the page does not rewrite `imul eax, ecx`.", 4, 4],
  ["a call that others prepare", "f:\n subq $8, %rsp\n movl $1, x(%rip)\n call g\n addq $8, %rsp\n ret\n",
    ", of which the page does not rewrite `call g`: a test has no calls", 4, 2],
  ["an instruction of a disassembly", "0000000000001180 <f>:\n    1180:\tc6 05 a9 2e 00 00 01 \tmovb   $0x1,0x2ea9(%rip)        # 4030 <x>\n    1187:\t0f af c1 \timul   %ecx,%eax\n    118a:\tc3                   \tret\n",
    ", of which the page does not rewrite `imul %ecx,%eax`.", 3, 21],
  ["code that returns jump over", "f:\n movl x(%rip), %eax\n testl %eax, %eax\n jne .L2\n.L3:\n movl $1, y(%rip)\n ret\n.L2:\n imull %eax, %eax\n jmp .L3\n",
    ", of which the page does not rewrite `imull %eax, %eax`.", 9, 2],
  ["a variable on the stack", "f:\n\tmovl\tx(%rip), %eax\n\tmovl\t$1, -4(%rsp)\n\tret\n",
    ". `movl $1, -4(%rsp)` accesses the stack", 3, 2],
  ["a variable on the stack with a number before it", "f:\n mov eax, DWORD PTR x[rip]\n mov DWORD PTR -4[rsp], eax\n ret\n",
    ". `mov DWORD PTR -4[rsp], eax` accesses the stack", 3, 2],
  ["an address in a register, after the front of a test", "X86 A\n{ x=1; }\nP0:\n mov [x],1\n mov [rdi], eax\nexists (x=1)\n",
    ": `mov [rdi], eax` has an address in a register", 5, 2],
  ["code of a library", "f:\n movl $1, y(%rip)\n movq x@GOTPCREL(%rip), %rax\n ret\n",
    "These are instructions of a library", 3, 2],
  ["two variables of one name", "f:\n movl $1,a_4(%rip)\n movl 4+a(%rip),%eax\n ret\n",
    ", in which `a_4` and `a+4` would have one name.", 3, 2],
  ["a part of a word", "f:\n movl a(%rip),%eax\n movl $1,a+2(%rip)\n ret\n",
    ": `a+2` is in the middle of a word.", 3, 2],
  ["a question on more bits than are known", "P0:\n movb x(%rip), %bl\nexists (0:ebx=1)\n",
    ", of which the page does not rewrite `0:ebx`", 3, 9],
  ["too many functions", "a:\n mov [x],1\n ret\nb:\n mov [x],2\n ret\nc:\n mov [x],3\n ret\nd:\n mov [x],4\n ret\ne:\n mov [x],5\n ret\n",
    ", in 5 parts, as `a` and `b`", 1, 1],
];

const ONE = "This loop only waits, so one try is enough: its thread can leave it by a jump forward";
const MORE = "These loops only wait, so one try is enough: threads can leave them by jumps forward";
const ASKED = ", and the question leaves them out.";
const BACK = "The jump to `L` goes back. Jumps go forward only: a loop is written out as often as it is tried.";
// Tests with a loop, the words on it, or null if it does more than wait, and the test that is made of it.
const LOOPS = [
  ["a loop that waits", `X86 MP
{ x=0; flag=0; }
 P0             | P1                ;
 MOV [x],$1     | L: MOV EAX,[flag] ;
 MOV [flag],$1  | CMP EAX,$0        ;
                | JE L              ;
                | MOV EBX,[x]       ;
exists (1:EBX=0)
`, `${ONE}. States in which it has not ended are hidden in the list${ASKED}`, `X86 MP
(* every wait ends: ~1:EAX=0 *)
{ x=0; flag=0; }
 P0             | P1                ;
 MOV [x],$1     | L: MOV EAX,[flag] ;
 MOV [flag],$1  | CMP EAX,$0        ;
                | JE END            ;
                | MOV EBX,[x]       ;
                | END:              ;
exists (~1:EAX=0 /\\ 1:EBX=0)
`],
  ["a loop of a source test", `SRC MP
{ x=0; flag=0; }
 P0        | P1 ;
 x := 1    | L: r0 := flag ;
 flag := 1 | if r0 = 0 goto L ;
           | r1 := x ;
~exists (1:r1=0 \\/ x=2)
`, `${ONE}. States in which it has not ended are hidden in the list${ASKED}`, `SRC MP
(* every wait ends: ~1:r0=0 *)
{ x=0; flag=0; }
 P0        | P1 ;
 x := 1    | L: r0 := flag ;
 flag := 1 | if r0 = 0 goto END ;
           | r1 := x ;
           | END:    ;
~exists (~1:r0=0 /\\ (1:r1=0 \\/ x=2))
`],
  ["a loop that a jump leaves, whose register is set later", `X86 MP
{ x=0; flag=0; }
 P0            | P1                 ;
 MOV [x],$1    | JMP T              ;
 MOV [flag],$1 | L: T: MOV EAX,[flag] ;
               | CMP EAX,$1         ;
               | JE D               ;
               | JMP L              ;
               | D: MOV EBX,[x]     ;
               | MOV EAX,EBX        ;
forall (1:EBX=1)
`, `${ONE}, with \`ECX\` in place of \`EAX\`, which is set again later. States in which it has not ended are hidden in the list${ASKED}`, `X86 MP
(* every wait ends: 1:ECX=1 *)
{ x=0; flag=0; }
 P0            | P1                 ;
 MOV [x],$1    | JMP T              ;
 MOV [flag],$1 | L: T: MOV ECX,[flag] ;
               | CMP ECX,$1         ;
               | JE D               ;
               | JMP END            ;
               | D: MOV EBX,[x]     ;
               | MOV EAX,EBX        ;
               | END:               ;
forall (~1:ECX=1 \\/ 1:EBX=1)
`],
  ["a register that is set later", `X86 MP
{ x=0; flag=0; }
 P0             | P1                ;
 MOV [x],$1     | L: MOV EAX,[flag] ;
 MOV [flag],$1  | CMP EAX,$0        ;
                | JE L              ;
                | MOV EAX,[x]       ;
locations [1:EAX]
exists (1:EAX=0)
`, `${ONE}, with \`EBX\` in place of \`EAX\`, which is set again later. States in which it has not ended are hidden in the list${ASKED}`, `X86 MP
(* every wait ends: ~1:EBX=0 *)
{ x=0; flag=0; }
 P0             | P1                ;
 MOV [x],$1     | L: MOV EBX,[flag] ;
 MOV [flag],$1  | CMP EBX,$0        ;
                | JE END            ;
                | MOV EAX,[x]       ;
                | END:              ;
locations [1:EAX]
exists (~1:EBX=0 /\\ 1:EAX=0)
`],
  ["a label at the end of the thread", `SRC MP
{ x=0; flag=0; }
 P0        | P1                   ;
 x := 1    | M: r0 := flag        ;
 flag := 1 | if r0 != 1 goto M    ;
           | r0 := x              ;
           | if r0 = 1 goto DONE  ;
           | y := 1               ;
           | DONE:                ;
forall (1:r0=1 \\/ x=2)
`, `${ONE}, with \`r1\` in place of \`r0\`, which is set again later. States in which it has not ended are hidden in the list${ASKED}`, `SRC MP
(* every wait ends: 1:r1=1 *)
{ x=0; flag=0; }
 P0        | P1                   ;
 x := 1    | M: r1 := flag        ;
 flag := 1 | if r1 != 1 goto DONE ;
           | r0 := x              ;
           | if r0 = 1 goto DONE  ;
           | y := 1               ;
           | DONE:                ;
forall (~1:r1=1 \\/ 1:r0=1 \\/ x=2)
`],
  ["three loops", `X86 MP
{ x=0; flag=0; }
 P0                  | P1                ;
 MOV [x],$1          | L: MOV EAX,[flag] ;
 MOV [flag],$1       | CMP EAX,$0        ;
 Z: MOV EBX,[done]   | JE L              ;
 CMP EBX,$1          | MOV EBX,[x]       ;
 JNE Z               | M: MOV EAX,[go]   ;
                     | CMP EAX,$3        ;
                     | JE M              ;
exists (1:EBX=0)
`, `${MORE}, with \`ECX\` in place of \`EAX\`, which is set again later. States in which one has not ended are hidden in the list${ASKED}`, `X86 MP
(* every wait ends: ~1:ECX=0 /\\ ~1:EAX=3 /\\ 0:EBX=1 *)
{ x=0; flag=0; }
 P0                  | P1                ;
 MOV [x],$1          | L: MOV ECX,[flag] ;
 MOV [flag],$1       | CMP ECX,$0        ;
 Z: MOV EBX,[done]   | JE END            ;
 CMP EBX,$1          | MOV EBX,[x]       ;
 JNE END             | M: MOV EAX,[go]   ;
 END:                | CMP EAX,$3        ;
                     | JE END            ;
                     | END:              ;
exists (~1:ECX=0 /\\ ~1:EAX=3 /\\ 0:EBX=1 /\\ 1:EBX=0)
`],
  ["a loop that a branch passes", `X86 MP
{ x=0; flag=0; }
 P0                  | P1                ;
 MOV [x],$1          | MOV ECX,[y]       ;
 MOV [flag],$1       | CMP ECX,$1        ;
                     | JE OUT            ;
                     | L: MOV EAX,[flag] ;
                     | CMP EAX,$0        ;
                     | JE L              ;
                     | OUT: MOV EBX,[x]  ;
exists (1:EBX=0)
`, `${ONE}. States in which it has not ended are in the list, too.`, `X86 MP
{ x=0; flag=0; }
 P0                  | P1                ;
 MOV [x],$1          | MOV ECX,[y]       ;
 MOV [flag],$1       | CMP ECX,$1        ;
                     | JE OUT            ;
                     | L: MOV EAX,[flag] ;
                     | CMP EAX,$0        ;
                     | JE END            ;
                     | OUT: MOV EBX,[x]  ;
                     | END:              ;
exists (1:EBX=0)
`],
  ["a loop with an exchange", `X86 MP
{ x=0; flag=0; }
 P0             | P1                ;
 MOV [x],$1     | MOV EAX,$1  ;
 MOV [flag],$1  | L: XCHG [flag],EAX ;
                | CMP EAX,$0        ;
                | JE L              ;
                | MOV EBX,[x]       ;
exists (1:EBX=0)
`, BACK, null],
  ["a jump into a loop", `X86 A
{}
 P0                ;
 JMP M             ;
 L: MOV EAX,[flag] ;
 M: CMP EAX,$0     ;
 JE L              ;
exists (x=1)
`, BACK, null],
  ["a loop with two loads", `X86 A
{}
 P0                ;
 L: MOV EAX,[flag] ;
 MOV EBX,[x]       ;
 CMP EAX,$0        ;
 JE L              ;
exists (x=1)
`, BACK, null],
  ["a loop that compares registers, at the end of its thread", `X86 A
{}
 P0          | P1                ;
 MOV [x],$1  | L: MOV EAX,[flag] ;
 MOV EAX,[y] | CMP EAX,ECX       ;
             | JNE L             ;
exists (x=1)
`, `${ONE}. States in which it has not ended are in the list, too.`, `X86 A
{}
 P0          | P1                ;
 MOV [x],$1  | L: MOV EAX,[flag] ;
 MOV EAX,[y] | CMP EAX,ECX       ;
             | JNE END           ;
             | END:              ;
exists (x=1)
`],
  ["a loop with a sum", `X86 A
{}
 P0            | P1             ;
 MOV [x],$1    | L: MOV EAX,[y] ;
 MOV [y],$7    | ADD EAX,$1     ;
               | JE L           ;
               | MOV EBX,[x]    ;
exists (1:EBX=0)
`, `${ONE}. States in which it has not ended are hidden in the list${ASKED}`, `X86 A
(* every wait ends: ~1:EAX=0 *)
{}
 P0            | P1             ;
 MOV [x],$1    | L: MOV EAX,[y] ;
 MOV [y],$7    | ADD EAX,$1     ;
               | JE END         ;
               | MOV EBX,[x]    ;
               | END:           ;
exists (~1:EAX=0 /\\ 1:EBX=0)
`],
];

// A part of a text that is repeated, in each kind of text; and the time in milliseconds that is bearable on a slow machine.
const LONG = 60000;
const LONG_TEXTS = [
  ["instructions in AT&T's order", (count) => `f:\n${"\tmovl\t$1, x(%rip)\n".repeat(count)}\tret\n`, 19],
  ["instructions in Intel's order", (count) => `f:\n${"  mov eax, DWORD PTR x[rip]\n".repeat(count)}  ret\n`, 28],
  ["functions", (count) => Array.from({ length: count }, (_, at) => `f${at}:\n mov [x],1\n ret\n`).join(""), 24],
  ["labels and jumps", (count) => `f:\n${Array.from({ length: count }, (_, at) => `.L${at}:\n jne .L${count - at}\n`).join("")} ret\n`, 20],
  ["jumps back", (count) => `f:\n${Array.from({ length: count }, (_, at) => `.L${at}:\n jne .L${Math.max(0, at - 1)}\n`).join("")} ret\n`, 20],
  ["initial words", (count) => `f:\n mov [x],1\n ret\nx:\n${" .long 1\n".repeat(count)}`, 9],
  ["variables", (count) => `f:\n mov [x],1\n ret\n${Array.from({ length: count }, (_, at) => `v${at}: .long ${at}\n`).join("")}`, 17],
  ["directives", (count) => `f:\n${"\t.cfi_startproc\n".repeat(count)} mov [x],1\n`, 16],
  ["comments", (count) => `f:\n${"# %bb.0: # one\n".repeat(count)} mov [x],1\n`, 15],
  ["blank lines", (count) => `mov [x],1\n${"\n".repeat(count)}mov eax,[x]\n`, 1],
  ["blanks", (count) => `mov [x],${" ".repeat(count)}1\nmov eax,[x]\n`, 1],
  ["parts of a name", (count) => `f:\n movl $1, ${"a::".repeat(count)}x(%rip)\n ret\n`, 3],
  ["parentheses", (count) => `f:\n jmp a${"(".repeat(count)} x\n`, 1],
  ["labels", (count) => `${Array.from({ length: count }, (_, at) => `f${at}:\n`).join("")} mov [x],1\n`, 7],
  ["functions of one jump", (count) => Array.from({ length: count }, (_, at) => `f${at}:\n jmp f0\n`).join(""), 15],
  ["statements of a line", (count) => `f: ${"mov [x],1; ".repeat(count)}\n`, 11],
  ["rows of a test with a loop", (count) => `X86 A\n{}\n P0 ;\n${" L: MOV EAX,[x] ;\n CMP EAX,$0 ;\n JE L ;\n".repeat(count)}exists (x=1)\n`, 42],
];

/** Returns the fault of a text that is no test, as lw reports it. */
function makeFault(text) {
  const index = Math.max(0, text.search(/\S/));
  return { kind: "text", number: 4, name: "Unexpected", row: text.slice(0, index).split("\n").length, column: 1, index };
}

/** Returns the fault of the first jump back of a text, as lw reports it. */
function makeJumpFault(text) {
  const { index } = [...text.matchAll(/(?<=\b(?:J\w+|goto) )\w+(?= *[|;])/g)].find(({ 0: label, index: at }) => text.slice(0, at).includes(`${label}:`));
  return { kind: "cell", number: 5, name: "Backward", row: text.slice(0, index).split("\n").length, column: 1, index };
}

/** Returns the text that a hint makes of another one; null if it proposes none. */
function applyChange(text, { change }) {
  return change ? text.slice(0, change.begin) + change.text + text.slice(change.end) : null;
}

/** Compares the time that long texts take. */
function compareTimes(page, compare) {
  for (const [name, make, length] of LONG_TEXTS) {
    const text = make(Math.ceil(LONG / length));
    const fault = text.startsWith("X86") ? makeJumpFault(text) : makeFault(text);
    const took = measure(() => page.faults.explainFault(fault, text));
    compare(`the time for a long text of ${name}`, true, took < SLOWEST || took);
  }
}

/**
 * Compares what the page makes of instructions, by its own modules.
 * @param {function(string, any, any)} compare
 */
export async function compareAssemblyTexts(compare) {
  const page = await loadModules(PARTS);
  for (const [name, text, words, made] of [...TEXTS, ...COMPILED]) {
    const hint = page.faults.explainFault(makeFault(text), text);
    const expected = words.replace(/^(?=[:,.])/, BEGIN);
    compare(`the words on ${name}`, expected, hint.words.slice(0, expected.length));
    compare(`the test of ${name}`, made, applyChange(text, hint));
  }
  for (const [name, text, words, row, column] of PLACES) {
    const fault = makeFault(text);
    const { words: found, at = fault } = page.faults.explainFault(fault, text);
    const expected = words.replace(/^(?=[:,.])/, BEGIN);
    compare(`the words on ${name}`, expected, found.slice(0, expected.length));
    const index = text.split("\n").slice(0, row - 1).reduce((sum, line) => sum + line.length + 1, 0) + column - 1;
    compare(`the place of ${name}`, { row, column, index }, { row: at.row, column: at.column, index: at.index });
  }
  for (const [name, text, words, made] of LOOPS) {
    const hint = page.faults.explainFault(makeJumpFault(text), text);
    compare(`the words on ${name}`, words, hint.words);
    const test = applyChange(text, hint);
    compare(`the test of ${name}`, [made, made !== null], [test, test !== null && page.other_tools.isRead(test)]);
  }
  compareTimes(page, compare);
}

await runAlone(import.meta.url, compareAssemblyTexts);
