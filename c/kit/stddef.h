/* The Rattle kit's C compiler comes without headers. The files of this folder declare what these programs use of the C
 * library, for that compiler alone; a system's own compiler uses the system's. */
#ifndef KIT_STDDEF_H
#define KIT_STDDEF_H
typedef __SIZE_TYPE__ size_t;
#define NULL ((void *)0)
#endif
