/* Loaded before a program (LD_PRELOAD), it counts the program's calls of malloc, calloc and realloc and refuses one of them: the one whose
   number, from 1, the environment's REFUSE gives (0: none). At the end the count goes into the file that COUNTED names, also where the program
   ends by _exit, as one does that may have threads. */
#include <errno.h>
#include <stdio.h>
#include <stdlib.h>
#include <sys/syscall.h>
#include <unistd.h>

void *__libc_malloc(size_t size);
void *__libc_calloc(size_t count, size_t size);
void *__libc_realloc(void *old, size_t size);

static unsigned long calls, refused;
static int counts;

__attribute__((constructor)) static void begin(void)
{
    const char *number = getenv("REFUSE");
    refused = number ? strtoul(number, NULL, 10) : 0;
    counts = 1;
}

__attribute__((destructor)) static void end(void)
{
    const char *name = getenv("COUNTED");
    counts = 0;
    FILE *file = name ? fopen(name, "w") : NULL;
    if (file) {
        fprintf(file, "%lu\n", calls);
        fclose(file);
    }
}

/* Whether this call is the one. */
static int is_refused(void)
{
    if (!counts || ++calls != refused)
        return 0;
    errno = ENOMEM;
    return 1;
}

void *malloc(size_t size)
{
    return is_refused() ? NULL : __libc_malloc(size);
}

void *calloc(size_t count, size_t size)
{
    return is_refused() ? NULL : __libc_calloc(count, size);
}

void *realloc(void *old, size_t size)
{
    return is_refused() ? NULL : __libc_realloc(old, size);
}

void _exit(int status)
{
    end();
    for (;;)
        syscall(SYS_exit_group, status);
}
