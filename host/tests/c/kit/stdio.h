/* What the programs use of <stdio.h>; stdbool.h says why. */
typedef struct file FILE;
extern FILE *stderr;
int fprintf(FILE *file, const char *format, ...);
int printf(const char *format, ...);
