/* The kit has a compiler and no headers: what include/noonhaggle.h needs of them. */
#ifndef STDDEF_H
#define STDDEF_H
typedef __SIZE_TYPE__ size_t;
#define NULL ((void *)0)
#define offsetof(type, field) __builtin_offsetof(type, field)
#endif
