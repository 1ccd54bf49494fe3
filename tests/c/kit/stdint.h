/* The kit has x86-64's C library and no headers: these hold what our C files use. */
#ifndef KIT_STDINT_H
#define KIT_STDINT_H
typedef unsigned char uint8_t;
typedef unsigned int uint32_t;
typedef unsigned long uint64_t;
#endif
