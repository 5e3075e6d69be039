/* Preloaded into a program: refuses the one allocation whose number, counted from 1, is in REFUSED. Where that is 0, a
   line feed for each allocation goes to standard error, since the program ends without a word at its end. */
#include <errno.h>
#include <stddef.h>
#include <stdlib.h>
#include <unistd.h>

extern void *__libc_malloc(size_t size);
extern void *__libc_realloc(void *old, size_t size);

static int is_refused(void)
{
    static unsigned long made;
    const char *refused = getenv("REFUSED");
    unsigned long number = __atomic_add_fetch(&made, 1, __ATOMIC_SEQ_CST);
    unsigned long chosen = refused == NULL ? number + 1 : strtoul(refused, NULL, 10);
    if (chosen == 0)
        return write(2, "\n", 1) < 0;
    if (chosen != number)
        return 0;
    errno = ENOMEM;
    return 1;
}

void *malloc(size_t size)
{
    return is_refused() ? NULL : __libc_malloc(size);
}

void *realloc(void *old, size_t size)
{
    return is_refused() ? NULL : __libc_realloc(old, size);
}
