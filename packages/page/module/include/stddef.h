/* What svid.h takes of the C library, for a module that has none. */
#define NULL ((void *)0)
typedef __SIZE_TYPE__ size_t;
