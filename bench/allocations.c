/* Refuses one allocation of a program, by its number: loaded in front of the C library by bench/allocations.

   REFUSED is the number, counted from 1; without it none is refused. COUNT names a file, into which the number of
   allocations is written at the end. */
#include <errno.h>
#include <stdio.h>
#include <stdlib.h>

extern void *__libc_malloc(size_t);
extern void *__libc_realloc(void *, size_t);

static unsigned long calls, refused;

__attribute__((constructor)) static void begin(void)
{
    const char *word = getenv("REFUSED");
    refused = word ? strtoul(word, NULL, 10) : 0;
    calls = 0;
}

static int is_refused(void)
{
    calls += 1;
    if (calls != refused)
        return 0;
    errno = ENOMEM;
    return 1;
}

void *malloc(size_t size)
{
    return is_refused() ? NULL : __libc_malloc(size);
}

void *realloc(void *from, size_t size)
{
    return is_refused() ? NULL : __libc_realloc(from, size);
}

__attribute__((destructor)) static void end(void)
{
    unsigned long made = calls;
    const char *name = getenv("COUNT");
    refused = 0;
    FILE *file = name ? fopen(name, "w") : NULL;
    if (file) {
        fprintf(file, "%lu\n", made);
        fclose(file);
    }
}
