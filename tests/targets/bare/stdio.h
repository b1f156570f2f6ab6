/* What host/example.c prints with, on a board without a system: board.c has it. */
#ifndef STDIO_H
#define STDIO_H
typedef int FILE;
#define stderr ((FILE *)0)
int printf(const char *format, ...);
int fprintf(FILE *to, const char *format, ...);
#endif
