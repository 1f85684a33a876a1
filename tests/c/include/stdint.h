/* The kit has a compiler and no headers: what include/noonhaggle.h needs of them. */
#ifndef STDINT_H
#define STDINT_H
typedef __UINT8_TYPE__ uint8_t;
typedef __UINT32_TYPE__ uint32_t;
#endif
