#ifndef STDIO_H
#define STDIO_H
#include <stddef.h>
#define EOF (-1)
typedef struct file FILE;
extern FILE *stderr;
FILE *fopen(const char *, const char *);
int fclose(FILE *);
int ferror(FILE *);
int getc(FILE *);
size_t fread(void *, size_t, size_t, FILE *);
size_t fwrite(const void *, size_t, size_t, FILE *);
int printf(const char *, ...);
int fprintf(FILE *, const char *, ...);
int snprintf(char *, size_t, const char *, ...);
#endif
