/* Bytes in memory, as the C standard's functions of these names. guests/make links those that a guest calls, or that the compiler makes
   calls of: a struct that is copied, an array that is set. */
#ifndef STRING_H
#define STRING_H

typedef unsigned long size_t;

void *memcpy(void *to, const void *from, size_t count);
void *memmove(void *to, const void *from, size_t count);
void *memset(void *to, int value, size_t count);
int memcmp(const void *one, const void *other, size_t count);
size_t strlen(const char *text);

#endif
