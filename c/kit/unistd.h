#ifndef KIT_UNISTD_H
#define KIT_UNISTD_H
#include <stddef.h>
typedef __INTPTR_TYPE__ ssize_t;
ssize_t read(int file, void *to, size_t length);
ssize_t write(int file, const void *from, size_t length);
#endif
