/* For programs that tools/from_c.py reads; it includes this file by itself.

   lw_see(NAME, VALUE) says what the condition means by N:NAME, if thread N executes it: the last such value of the run, modulo 2 to the 32; 0 if the
   run executes none. In the assembly lw_see is a comment that says in which register the value is, and no instruction
   and no access: the compiler sees a use of the value, so the value is computed at every level of optimisation. At the end of a function that has no
   `return` the tool adds one for each local variable that the condition names. */
#ifndef LW_SEE_H
#define LW_SEE_H

#define lw_see(name, value) __asm__ volatile("#lw see " #name " %0" : : "r"((unsigned)(__UINTPTR_TYPE__)(value)))

#endif
