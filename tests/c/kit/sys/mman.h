#ifndef KIT_SYS_MMAN_H
#define KIT_SYS_MMAN_H
#include <stddef.h>
#define PROT_READ 1
#define PROT_WRITE 2
#define MAP_PRIVATE 2
#define MAP_ANONYMOUS 32
#define MAP_NORESERVE 16384
#define MAP_FAILED ((void *)-1)
void *mmap(void *at, size_t length, int protection, int flags, int file, long offset);
#endif
