/* See stdint.h. */
#define NULL ((void *)0)
typedef __SIZE_TYPE__ size_t;
