/* stddef.h: the kit's clang brings no headers; this folder declares what the C programs here use, for Linux. */
#pragma once
typedef __SIZE_TYPE__ size_t;
typedef __PTRDIFF_TYPE__ ptrdiff_t;
#define NULL ((void *)0)
