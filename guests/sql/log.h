/* What SQLite says of the database itself: that it played a journal back, that the disk is full or can't be read. The newest lines stay. */
#ifndef LOG_H
#define LOG_H

/* Keeps it from now on; before SQLite starts. Answers as SQLite does. */
int log_start(void);

/* The lines, each with the seconds since boot. */
const char *log_lines(void);

#endif
