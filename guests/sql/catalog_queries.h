/* The catalog as a table of queries. */
#ifndef CATALOG_QUERIES_H
#define CATALOG_QUERIES_H

/* How columns are declared beside TEXT and INTEGER, so that clients are told PostgreSQL's type. */
#define TRUTH "pg_bool"
#define NUMBERS "pg_numbers_text"
#define TEXTS "pg_texts_text"

struct relation {
    const char *name;
    const char *columns; /* their names and types, as in CREATE TABLE */
    const char *sql;     /* what it has, or NULL: nothing, since there is no such thing here */
};

/* A function whose answer is what a query comes to, whose values are ?1, ?2, .. */
struct function {
    const char *name;
    int least, most;     /* values */
    const char *sql;
    const char *missing; /* what is said where the query has no row; NULL: the answer is NULL */
};

/* The last one has no name. */
extern const struct relation catalog_relations[];
extern const struct function catalog_functions[];

#endif
