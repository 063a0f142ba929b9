/* What the server serves. */
#ifndef FILES_H
#define FILES_H

/* Writes the disk where it is empty, and reads where the counter stands. Answers whether the disk can be used. */
int files_start(void);

#endif
