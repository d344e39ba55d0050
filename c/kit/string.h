#ifndef KIT_STRING_H
#define KIT_STRING_H
#include <stddef.h>
void *memchr(const void *text, int byte, size_t length);
int memcmp(const void *one, const void *other, size_t length);
void *memcpy(void *restrict to, const void *restrict from, size_t length);
void *memmove(void *to, const void *from, size_t length);
int strcmp(const char *one, const char *other);
size_t strlen(const char *text);
#endif
