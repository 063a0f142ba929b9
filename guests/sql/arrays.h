/* PostgreSQL's arrays as text: {1,2}, {"a b",NULL}; or, as its vectors are, 1 2. */
#ifndef ARRAYS_H
#define ARRAYS_H

#include "sqlite3.h"
#include "text.h"

/* What an array that a function has made is of, as the subtype of its value. */
enum { ARRAY_OF_TEXTS = 1, ARRAY_OF_NUMBERS };

/* A place in an array. */
struct elements {
    const char *at;
    int is_vector;
    int is_null;       /* the element that was read */
    struct text value; /* and its bytes */
};

/* Begins to read one. Answers whether it is one, of one dimension. */
int elements_start(struct elements *elements, const char *array);

/* Reads the next element, if there is one. */
int elements_next(struct elements *elements);

/* The element as a value: digits alone are a number. */
void element_result(sqlite3_context *context, const struct elements *elements);

void elements_drop(struct elements *elements);

/* Makes the functions of arrays on a connection. Answers whether there was memory. */
int arrays_make(sqlite3 *database);

#endif
