/* What lwIP uses of <stdlib.h>. */
#ifndef STDLIB_H
#define STDLIB_H

int atoi(const char *text);

#endif
