// Compares what the page makes of texts as papers, books, documents and chats print them with what is typed in here: its words, and the test that its
// button puts into the text.
//
//     node tools/gate/paper_texts.mjs      compares; the last line is 'N passed, M failed'
//
// tools/gate/check_site.mjs compares this too. It needs neither a browser nor the module.

import { loadModules } from "./c_programs.mjs";
import { compareTexts, compareTimes, runAlone } from "./typed_texts.mjs";

const PARTS = ["faults", "other_tools"];
const TABLE = "This is a table of instructions, as papers print it: `MOV [x] \u2190 1` is `MOV [x],$1` here.";
const ACCESSES = "This is pseudo code: each access of a name that threads share is one load or one store.";
const ATOMICS = " Those of atomic variables are as gcc and clang compile them.";
const GUESS = " The question is a guess: change it to yours.";
const AROUND = " The text around the code is left out: look there for initial words and for what it asks.";
const NUMBERS = " Its lines have numbers, which are left out.";
const UNSURE = "This looks like pseudo code, and the page can't make a test of it because of";
const UNSURE_TABLE = "This looks like a table of instructions, and the page can't make a test of it because of";
const OF_STATES = "it is no final state for sure, as `0:EAX=0 \u2227 1:EBX=0` is.";
const OF_ROWS = "in such a row only `MOV`, `XCHG` and `MFENCE` on names and on registers of 32 bits are read.";
const OF_START = "This is code with text around it that may say with which words its variables begin: paste only the code, with these words in it.";
const COMPILED =
  "This begins as a program in C++ does. The button makes an x86 test of it: each access as gcc and clang compile it, in the order of the " +
  "program. That is not proved, and a compiler may also reorder or merge relaxed and plain accesses.";
const SB = " P0          | P1          ;\n MOV [x],$1  | MOV [y],$1  ;\n MOV EAX,[y] | MOV EBX,[x] ;\n";
const SB_ALIKE = " P0          | P1          ;\n MOV [x],$1  | MOV [y],$1  ;\n MOV EAX,[y] | MOV EAX,[x] ;\n";
const SB_CODE = "MOV [x] \u2190 1 | MOV [y] \u2190 1\nMOV EAX \u2190 [y] | MOV EBX \u2190 [x]\n";
const SB_NAMED = "X86 Mine\n(* 0:EAX is r1, 1:EAX is r2 *)\n{ x=0; y=0; }\n";
const PROGRAM = "std::atomic<int> x{0}, y{0};\nint r1, r2;\nvoid t1() { x.store(1, std::memory_order_relaxed); r1 = y.load(std::memory_order_relaxed); }\n" +
  "void t2() { y.store(1, std::memory_order_relaxed); r2 = x.load(std::memory_order_relaxed); }\n";

// A text, the words on it, and the test that is made of it, or null.
const TABLES = [
  ["a table with a final state that is allowed", `SB\nProc 0 | Proc 1\n${SB_CODE}Allowed Final State: Proc 0:EAX=0 \u2227 Proc 1:EBX=0\n`,
    TABLE, `X86 SB\n{}\n${SB}exists (0:EAX=0 /\\ 1:EBX=0)\n`],
  ["columns with a word of memory in a final state", "n6\nproc:0          proc:1\nMOV [x] \u2190 $1    MOV [y] \u2190 $2\nMOV EAX \u2190 [x]   MOV [x] \u2190 $2\nMOV EBX \u2190 [y]\nFinal: 0:EAX=1 \u2227 0:EBX=0 \u2227 [x]=1\n",
    TABLE, "X86 n6\n{}\n P0          | P1         ;\n MOV [x],$1  | MOV [y],$2 ;\n MOV EAX,[x] | MOV [x],$2 ;\n MOV EBX,[y] |            ;\nexists (0:EAX=1 /\\ 0:EBX=0 /\\ x=1)\n"],
  ["numbers of instructions, and one register in two threads", "proc:0 | proc:1\npoi:0 MOV [x]\u2190$1 | poi:0 MOV [y]\u2190$1\npoi:1 MOV EAX\u2190[y] | poi:1 MOV EAX\u2190[x]\nForbid: 0:EAX=0 \u2227 1:EAX=0\n",
    TABLE, `X86 Mine\n{}\n${SB_ALIKE}exists (0:EAX=0 /\\ 1:EAX=0)\n`],
  ["events after instructions", "SB\nThread 0 | Thread 1\nMOV [x]\u21901 (write x=1) | MOV [y]\u21901 (write y=1)\nMOV EAX\u2190[y] (read y=0) | MOV EBX\u2190[x] (read x=0)\nAllowed Final State: Thread 0:EAX=0 \u2227 Thread 1:EBX=0\n",
    TABLE, `X86 SB\n{}\n${SB}exists (0:EAX=0 /\\ 1:EBX=0)\n`],
  ["four columns with empty cells", "IRIW\nProc 0        Proc 1        Proc 2          Proc 3\nMOV [x] \u2190 1   MOV [y] \u2190 1   MOV EAX \u2190 [x]   MOV ECX \u2190 [y]\n                            MOV EBX \u2190 [y]   MOV EDX \u2190 [x]\nForbidden Final State: Proc 2:EAX=1 \u2227 Proc 2:EBX=0 \u2227 Proc 3:ECX=1 \u2227 Proc 3:EDX=0\n",
    TABLE, "X86 IRIW\n{}\n P0         | P1         | P2          | P3          ;\n MOV [x],$1 | MOV [y],$1 | MOV EAX,[x] | MOV ECX,[y] ;\n            |            | MOV EBX,[y] | MOV EDX,[x] ;\nexists (2:EAX=1 /\\ 2:EBX=0 /\\ 3:ECX=1 /\\ 3:EDX=0)\n"],
  ["an empty cell between bars", "Proc 0 | Proc 1 | Proc 2\nMOV [x]\u21901 | MOV [y]\u21901 | MOV ECX\u2190[y]\nMOV EAX\u2190[x] | | MOV EDX\u2190[x]\n",
    TABLE + GUESS, "X86 Mine\n{}\n P0          | P1         | P2          ;\n MOV [x],$1  | MOV [y],$1 | MOV ECX,[y] ;\n MOV EAX,[x] |            | MOV EDX,[x] ;\nexists (0:EAX=0 /\\ ~2:ECX=0 /\\ 2:EDX=0)\n"],
  ["fences and a title that is no name", "iwp2.3.a/amd4\nProc 0          Proc 1\nMOV [x] \u2190 1     MOV [y] \u2190 1\nMFENCE          MFENCE\nMOV EAX \u2190 [y]   MOV EBX \u2190 [x]\nForbidden final state: 0:EAX=0 \u2227 1:EBX=0\n",
    TABLE, "X86 Mine\n{}\n P0          | P1          ;\n MOV [x],$1  | MOV [y],$1  ;\n MFENCE      | MFENCE      ;\n MOV EAX,[y] | MOV EBX,[x] ;\nexists (0:EAX=0 /\\ 1:EBX=0)\n"],
  ["threads from 1 on", `Proc 1 | Proc 2\n${SB_CODE}Forbidden: 1:EAX=0 \u2227 2:EBX=0\n`, TABLE, `X86 Mine\n{}\n${SB}exists (0:EAX=0 /\\ 1:EBX=0)\n`],
  ["a question of a test for threads from 1 on", `Proc 1 | Proc 2\n${SB_CODE}exists (1:EAX=0 /\\ 2:EBX=0)\n`, TABLE, `X86 Mine\n{}\n${SB}exists (0:EAX=0 /\\ 1:EBX=0)\n`],
  ["initial words", "Initially [x]=1\nProc 0          Proc 1\nMOV [x] \u2190 2     MOV EBX \u2190 [x]\nFinal: [x]=2 \u2227 1:EBX=1\n",
    TABLE, "X86 Mine\n{ x=1; }\n P0         | P1          ;\n MOV [x],$2 | MOV EBX,[x] ;\nexists (x=2 /\\ 1:EBX=1)\n"],
  ["threads in lines, and registers without threads", "Thread 0: MOV [x],1; MOV EAX,[y]\nThread 1: MOV [y],1; MOV EBX,[x]\nFinal: EAX=0, EBX=0\n",
    TABLE, `X86 Mine\n{}\n${SB}exists (0:EAX=0 /\\ 1:EBX=0)\n`],
  ["AT&T's notation in columns", "CPU0                CPU1\nmovl $1, x          movl $1, y\nmfence              mfence\nmovl y, %eax        movl x, %eax\n",
    TABLE + GUESS, "X86 Mine\n{}\n P0          | P1          ;\n MOV [x],$1  | MOV [y],$1  ;\n MFENCE      | MFENCE      ;\n MOV EAX,[y] | MOV EAX,[x] ;\nexists (0:EAX=0 /\\ 1:EAX=0)\n"],
  ["an exchange of a register that is not set", "proc 0 | proc 1\nlock xchg [x], eax | mov ebx, [x]\n",
    `${TABLE} \`EAX\` of P0 has no value before it is read: it is 0 here.${GUESS}`, "X86 Mine\n{}\n P0           | P1          ;\n XCHG [x],EAX | MOV EBX,[x] ;\nexists (1:EBX=0)\n"],
  ["a frame of Markdown", "| Proc 0 | Proc 1 |\n|---|---|\n| MOV [x] \u2190 1 | MOV [y] \u2190 1 |\n| MOV EAX \u2190 [y] | MOV EBX \u2190 [x] |\n",
    TABLE + GUESS, `X86 Mine\n{}\n${SB}exists (0:EAX=0 /\\ 1:EBX=0)\n`],
  ["a row without its first bar in a table without a frame", "Proc 0 | Proc 1\nMOV [x] \u2190 1 | MOV [y] \u2190 1\n| MOV EBX \u2190 [x]\n", `${UNSURE_TABLE} \`| MOV EBX \u2190 [x]\`: ${OF_ROWS}`, null],
  ["a register of two threads without its thread", `Proc 0 | Proc 1\n${SB_CODE.replace("EBX", "EAX")}Allowed: EAX=0\n`, `${UNSURE_TABLE} \`Allowed: EAX=0\`: ${OF_STATES}`, null],
  ["a final state with or", `Proc 0 | Proc 1\n${SB_CODE}Allowed: EAX=0 \u2228 EBX=0\n`, `${UNSURE_TABLE} \`Allowed: EAX=0 \u2228 EBX=0\`: ${OF_STATES}`, null],
  ["two verdicts in a line", `Proc 0 | Proc 1\n${SB_CODE}Allowed: EAX=1; Forbidden: EBX=0\n`, `${UNSURE_TABLE} \`Allowed: EAX=1; Forbidden: EBX=0\`: ${OF_STATES}`, null],
  ["a negated final state", `Proc 0 | Proc 1\n${SB_CODE}~(EAX=0 \u2227 EBX=0)\n`, `${UNSURE_TABLE} \`~(EAX=0 \u2227 EBX=0)\`: ${OF_STATES}`, null],
  ["a final state that is not possible", `Proc 0 | Proc 1\n${SB_CODE}EAX=0 and EBX=0 is not possible\n`, TABLE, `X86 Mine\n{}\n${SB}exists (0:EAX=0 /\\ 1:EBX=0)\n`],
  ["a final state that is negated in words", `Proc 0 | Proc 1\n${SB_CODE}Forbidden: not (EAX=0 and EBX=0)\n`,
    `${UNSURE_TABLE} \`Forbidden: not (EAX=0 and EBX=0)\`: ${OF_STATES}`, null],
  ["a final state with another sign", `Proc 0 | Proc 1\n${SB_CODE}EAX=0 \u2227 EBX\u22600 allowed\n`, `${UNSURE_TABLE} \`EAX=0 \u2227 EBX\u22600 allowed\`: ${OF_STATES}`, null],
  ["a final state of a name that no thread has", `Proc 0 | Proc 1\n${SB_CODE}EAX=0, [z]=1 allowed\n`, `${UNSURE_TABLE} \`EAX=0, [z]=1 allowed\`: ${OF_STATES}`, null],
  ["a condition below a table", `Proc 0 | Proc 1\n${SB_CODE}if EAX=0 then EBX=1\n`, `${UNSURE_TABLE} \`if EAX=0 then EBX=1\`: ${OF_STATES}`, null],
  ["initial words in a title", `x starts at 5\nProc 0 | Proc 1\n${SB_CODE}`, `${UNSURE_TABLE} the lines before it: write initial words as \`Initially x = 1\`.`, null],
  ["a fence between columns", "Proc 0            Proc 1\nMOV [x] \u2190 1       MOV [y] \u2190 1\n      MFENCE\nMOV EAX \u2190 [y]     MOV EBX \u2190 [x]\n", `${UNSURE_TABLE} \`MFENCE\`: ${OF_ROWS}`, null],
  ["another instruction in a table", "Proc 0            Proc 1\nMOV [x] \u2190 1       MOV [y] \u2190 1\nADD EAX, 1        MOV EBX \u2190 [x]\n", `${UNSURE_TABLE} \`ADD EAX, 1 MOV EBX \u2190 [x]\`: ${OF_ROWS}`, null],
];
const DOCUMENTS = [
  ["an assertion of the kernel below columns", "\tCPU 0                     CPU 1\n\t=======================   =======================\n\tWRITE_ONCE(x, 1);         WRITE_ONCE(y, 1);\n\tsmp_mb();                 smp_mb();\n\tr1 = READ_ONCE(y);        r2 = READ_ONCE(x);\n\n\tBUG_ON(r1 == 0 && r2 == 0);\n",
    ACCESSES, `${SB_NAMED} P0          | P1          ;\n MOV [x],$1  | MOV [y],$1  ;\n MFENCE      | MFENCE      ;\n MOV EAX,[y] | MOV EAX,[x] ;\n~exists ((0:EAX = 0 /\\ 1:EAX = 0))\n`],
  ["an assertion of the kernel in a thread", "P0            P1\nx = 1         r1 = y\ny = 1         BUG_ON(r1 == 1 && x == 0)\n",
    ACCESSES, "X86 Mine\n(* 1:EAX is r1, 1:EBX is x as asserted *)\n{ x=0; y=0; }\n P0         | P1          ;\n MOV [x],$1 | MOV EAX,[y] ;\n MOV [y],$1 | MOV EBX,[x] ;\n~exists (1:EAX=1 /\\ 1:EBX=0)\n"],
  ["an assertion of a negation below threads", "P0: x = 1; r1 = y\nP1: y = 1; r2 = x\nWARN_ON_ONCE(!(r1 == 1 || r2 == 1));\n",
    ACCESSES, `${SB_NAMED}${SB_ALIKE}~exists ((~(0:EAX = 1 \\/ 1:EAX = 1)))\n`],
  ["an assertion on a register of another thread", "CPU 0:\n x = 1\n r1 = y\nCPU 1:\n y = 1\n r2 = x\n BUG_ON(r2 == 0 && r1 == 0)\n",
    `${UNSURE} \`r1\`: a thread has it, and another one sets it, so ask for it below the threads, or write a name that is shared.`, null],
  ["loads with the words that they read", "CPU 1\t\t\tCPU 2\t\t\tCPU 3\n=======================\t=======================\t=======================\n\t{ X = 0, Y = 0 }\nSTORE X=1\t\tr1=LOAD X (reads 1)\tLOAD Y (reads 1)\n\t\t\t<general barrier>\t<read barrier>\n\t\t\tSTORE Y=r1\t\tLOAD X\n",
    ACCESSES, "X86 Mine\n(* 1:EAX is r1, 2:EAX is loaded2, 2:EBX is loaded2_2 *)\n{ X=0; Y=0; }\n P0         | P1          | P2          ;\n MOV [X],$1 | MOV EAX,[X] | MOV EAX,[Y] ;\n            | MFENCE      | MOV EBX,[X] ;\n            | MOV [Y],EAX |             ;\nlocations [2:EBX]\nexists (1:EAX=1 /\\ 2:EAX=1)\n"],
  ["a register that reads two words", "P0: x = 1; r1 = y (reads 0); r1 = z (reads 1)\nP1: y = 1; z = 1\n",
    `${UNSURE} \`x = 1; r1 = y (reads 0); r1 = z (reads 1)\`: it is no statement that is read here, as \`x = 1\`, \`r1 = x\`, \`if (r1 == 1)\`, \`while (x == 0)\` and \`mfence\` are.`, null],
  ["a pointer in a column", "CPU 1            CPU 2\n{ B == 2, P == 0 }\nB = 4;           Q = READ_ONCE(P);\nP = &B;          D = *Q;\n", `${UNSURE} \`P = &B;\`: pointers are not read, so write variables.`, null],
  ["a question after initial words in their line", "Thread 1        Thread 2\nx = 1;          y = 1;\nr1 = y;         r2 = x;\n\nInitially x = y = 0. Is r1 = r2 = 0 possible?\n",
    ACCESSES, `${SB_NAMED}${SB_ALIKE}exists (0:EAX=0 /\\ 1:EAX=0)\n`],
  ["another sentence after initial words", "Initially x = 1. Then y = 2.\nP0: x = 2; r1 = y\nP1: y = 1; r2 = x\n",
    `${UNSURE} \`Initially x = 1. Then y = 2.\`: it is not sure what initial words it has, so write them as \`Initially x = 0\`.`, null],
  ["a question that another one explains", "Can this program see r1 = 1, r2 = 2?\n(Can Thread 2 see x = 1 before x = 2?)\n\n// Thread 1    // Thread 2\nx = 1          r1 = x\nx = 2          r2 = x\nOn x86: yes.\n",
    ACCESSES, "X86 Mine\n(* 1:EAX is r1, 1:EBX is r2 *)\n{ x=0; }\n P0         | P1          ;\n MOV [x],$1 | MOV EAX,[x] ;\n MOV [x],$2 | MOV EBX,[x] ;\nexists (1:EAX=1 /\\ 1:EBX=2)\n"],
  ["a sentence of the standard", "[Note: For example, with x and y initially zero,\n// Thread 1:\nr1 = y.load(memory_order::relaxed);\nif (r1 == 42) x.store(r1, memory_order::relaxed);\n// Thread 2:\nr2 = x.load(memory_order::relaxed);\nif (r2 == 42) y.store(42, memory_order::relaxed);\nshould not produce r1 == r2 == 42.\n",
    ACCESSES + ATOMICS, "X86 Mine\n(* 0:EAX is r1, 1:EAX is r2 *)\n{ y=0; x=0; }\n P0          | P1          ;\n MOV EAX,[y] | MOV EAX,[x] ;\n CMP EAX,$42 | CMP EAX,$42 ;\n JNE END     | JNE END     ;\n MOV [x],EAX | MOV [y],$42 ;\n END:        | END:        ;\nexists (0:EAX=42 /\\ 1:EAX=42)\n"],
  ["a result and why it is", "Thread 1:\n x = 1;\n r1 = y;\nThread 2:\n y = 1;\n r2 = x;\nOn x86 the result r1 = r2 = 0 is possible because of store buffering.\n",
    ACCESSES, `${SB_NAMED}${SB_ALIKE}exists (0:EAX=0 /\\ 1:EAX=0)\n`],
  ["a condition after a question", "P0: x = 1; r1 = y\nP1: y = 1; r2 = x\nIs r1 = 0 possible although r2 = 0?\n",
    "This is pseudo code: each assignment is one load or one store. The question is a guess: change it to yours. A source test runs by interleaving; the tab Compile adds its fences.",
    "X86 Mine\n(* 0:EBX is r1, 1:ECX is r2 *)\n{}\n P0          | P1          ;\n MOV [x],$1  | MOV [y],$1  ;\n MOV EBX,[y] | MOV ECX,[x] ;\nexists (0:EBX=0 /\\ 1:ECX=0)\n"],
  ["another state in an explanation", "P0: x = 1; r1 = y\nP1: y = 1; r2 = x\nr1 = 1 is possible since y is 1, although r1 = r2 = 0 is not.\n",
    ACCESSES + GUESS, `${SB_NAMED}${SB_ALIKE}exists (0:EAX=0 /\\ 1:EAX=0)\n`],
  ["one processor", "Processor 0\nmov [ _x], 1\nmov r1, [ _x]\nInitially x = 0\nr1 = 0 is not allowed\n",
    ACCESSES, "X86 Mine\n(* 0:EAX is r1 *)\n{ x=0; }\n P0          ;\n MOV [x],$1  ;\n MOV EAX,[x] ;\nexists (0:EAX=0)\n"],
  ["names of processors whose code is below both", "Processor 0\nProcessor 1\nmov [ _x], 1\nmov [ _y], 1\nmov r1, [ _y]\nmov r2, [ _x]\nInitially x = y = 0\nr1 = 0 and r2 = 0 is allowed\n",
    `${UNSURE} the thread 0: it has no code of its own, so write the lines of each thread below its name.`, null],
  ["code of any number of threads", "lock(integer i) {\n    Entering[i] = true;\n    Number[i] = 1 + max(Number[1], ..., Number[N]);\n    Entering[i] = false;\n    for (integer j = 1; j <= N; j++) {\n        while (Entering[j]) { /* nothing */ }\n    }\n}\n",
    "This looks like code of any number of threads: write out that of two, each below its name, as `P0:`.", null],
  ["an assertion that may be one of the last thread", "P0:\ndata = 1\nready = 1\nP1:\nr1 = ready\nassert(data == 1)\n",
    `${UNSURE} \`assert(data == 1)\`: it may be of the thread above it or of all, so indent it as that thread, or leave a blank line above it.`, null],
  ["a jump in a thread", "P0:\n x = 1\nP1:\n r1 = x\n if r1 == 0 goto L\n r2 = y\n", `${UNSURE} \`if r1 == 0 goto L\`: a jump is not read, so write a branch or a loop.`, null],
  ["a constant without its number", "P0: x = READY; r1 = y\nP1: y = 1; r2 = x\n", `${UNSURE} \`READY\`: it may be a constant, so write its number, or its initial word, as \`Initially x = 0\`.`, null],
];
const CHATS = [
  ["a program in a chat", `Here's an example:\n\n\`\`\`cpp\n${PROGRAM}\`\`\`\n\nBoth \`r1\` and \`r2\` can be 0 at the end on x86.\n`,
    COMPILED + GUESS + AROUND, `${SB_NAMED}${SB_ALIKE}exists (0:EAX=0 /\\ 1:EAX=0)\n`],
  ["a test in a chat", `Here is the test:\n\n\`\`\`\nX86 SB\n{ x=0; y=0; }\n${SB}exists (0:EAX=0)\n\`\`\`\n\n**Explanation**: on TSO this is allowed.\n`,
    "There is text around the test, which is no part of it.", `X86 SB\n{ x=0; y=0; }\n${SB}exists (0:EAX=0)\n`],
  ["a program with sentences around it", `Consider the following program:\n\n${PROGRAM}\nThe assertion can never fire here.\n`,
    COMPILED + GUESS + AROUND, `${SB_NAMED}${SB_ALIKE}exists (0:EAX=0 /\\ 1:EAX=0)\n`],
  ["a program below a sentence on initial words", `Assume that main stores 7 to y first.\n\n${PROGRAM}`, OF_START, null],
  ["instructions below a sentence on initial words", "The variable y starts with 3:\n\n```asm\nt0:\n  mov DWORD PTR x[rip], 1\n  mov eax, DWORD PTR y[rip]\n  ret\n```\n", OF_START, null],
  ["several programs in a chat", `Version A:\n\`\`\`cpp\n${PROGRAM}\`\`\`\nVersion B:\n\`\`\`cpp\n${PROGRAM.replaceAll("relaxed", "seq_cst")}\`\`\`\n`,
    "This text has several pieces of code: paste one of them.", null],
  ["pseudo code in a chat with initial words", "Suppose x is initially 5.\n\n```\nThread 0        Thread 1\nx = 1           y = 1\nr0 = y          r1 = x\n```\n",
    `${UNSURE} \`Suppose x is initially 5.\`: it is not sure what initial words it has, so write them as \`Initially x = 0\`.`, null],
  ["a table of Markdown with bold words", "**Store buffering (SB)**\n\n| Thread 0 | Thread 1 |\n|----------|----------|\n| `x = 1` | `y = 1` |\n| `r1 = y` | `r2 = x` |\n\n**Question:** can `r1 == 0 && r2 == 0`? Yes, on x86-TSO.\n",
    ACCESSES, `${SB_NAMED}${SB_ALIKE}exists (0:EAX=0 /\\ 1:EAX=0)\n`],
  ["numbers before the lines of a program", `${PROGRAM.trim().split("\n").map((it, at) => `${at + 1} ${it}`).join("\n")}\n`,
    COMPILED + GUESS + NUMBERS, `${SB_NAMED}${SB_ALIKE}exists (0:EAX=0 /\\ 1:EAX=0)\n`],
  ["numbers before the lines of a program that is not read", " 1 void foo(void)\n 2 {\n 3   a = 1;\n 4   smp_mb();\n 5 }\n",
    `The page can't make a test of this program in C because of \`a = 1\`: \`a\` is not declared.${NUMBERS}`, null],
];
const LONG = 3900;
const LONG_TEXTS = [
  ["bars", `Proc 0 | Proc 1\n${"| ".repeat(LONG / 2)}\n`], ["a final state", `Proc 0 | Proc 1\n${SB_CODE}${"EAX=0 ".repeat(LONG / 6)}\n`],
  ["numbers", "1 x\n".repeat(LONG)], ["marks", "```\n".repeat(LONG)], ["words", `${"Here we see it\n".repeat(1000)}${PROGRAM}`], ["capital letters", "A ".repeat(9000)],
];

/**
 * Compares what the page makes of texts of papers, documents and chats, by its own modules.
 * @param {function(string, any, any)} compare
 */
export async function comparePaperTexts(compare) {
  const page = await loadModules(PARTS);
  compareTexts(page, compare, [...TABLES, ...DOCUMENTS, ...CHATS]);
  compareTimes(page, compare, LONG_TEXTS);
}

await runAlone(import.meta.url, comparePaperTexts);
