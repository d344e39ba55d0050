#ifndef KIT_STDLIB_H
#define KIT_STDLIB_H
#define EXIT_SUCCESS 0
#define EXIT_FAILURE 1
int atoi(const char *text);
_Noreturn void exit(int status);
#endif
