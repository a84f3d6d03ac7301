/* The kit's compiler has no headers, and no package is to be needed: the standard names that the C here uses stand in this folder. */
#ifndef STDDEF_H
#define STDDEF_H

#define NULL ((void *)0)
#define offsetof(type, field) __builtin_offsetof(type, field)

typedef __SIZE_TYPE__ size_t;

#endif
