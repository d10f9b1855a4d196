// The test with which a reader's own test begins.

export const TEMPLATE = "X86 Mine\n{ x=0; }\n P0         | P1          ;\n MOV [x],$1 | MOV EAX,[x] ;\nexists (1:EAX=0)\n";
