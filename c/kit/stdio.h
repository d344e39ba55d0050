#ifndef KIT_STDIO_H
#define KIT_STDIO_H
int printf(const char *restrict format, ...);
#endif
