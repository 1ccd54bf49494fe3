#ifndef KIT_STDIO_H
#define KIT_STDIO_H
#include <stddef.h>
typedef struct _IO_FILE FILE;
extern FILE *stdin;
int printf(const char *format, ...);
size_t fread(void *to, size_t size, size_t count, FILE *from);
#endif
