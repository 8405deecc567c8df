#ifndef STDINT_H
#define STDINT_H
typedef unsigned char uint8_t;
typedef unsigned short uint16_t;
typedef unsigned int uint32_t;
typedef unsigned long uint64_t;
typedef unsigned long uintptr_t;
#define UINT8_MAX 255
#define UINT32_MAX 4294967295u
#endif
