/* Refuses memory: the allocation whose number is in REFUSE, counted from 1, or with REFUSE_ALL set
 * all from there on. tests/memory.py loads it before the C library. At the end it writes how many
 * allocations there were into the file REFUSE_COUNT. */
#define _GNU_SOURCE
#include <dlfcn.h>
#include <errno.h>
#include <fcntl.h>
#include <stdio.h>
#include <stdlib.h>
#include <sys/syscall.h>
#include <unistd.h>

static unsigned long calls, refused;
static int all, begun;

static int refuses(void)
{
    if (!begun) {
        const char *word = getenv("REFUSE");
        begun = 1;
        refused = word ? strtoul(word, NULL, 10) : 0;
        all = getenv("REFUSE_ALL") != NULL;
    }
    calls++;
    if (refused && (calls == refused || (all && calls > refused))) {
        errno = ENOMEM;
        return 1;
    }
    return 0;
}

void *malloc(size_t size)
{
    static void *(*real)(size_t);
    if (!real)
        real = (void *(*)(size_t))dlsym(RTLD_NEXT, "malloc");
    return refuses() ? NULL : real(size);
}

void *realloc(void *block, size_t size)
{
    static void *(*real)(void *, size_t);
    if (!real)
        real = (void *(*)(void *, size_t))dlsym(RTLD_NEXT, "realloc");
    return refuses() ? NULL : real(block, size);
}

__attribute__((destructor)) static void told(void)
{
    const char *name = getenv("REFUSE_COUNT");
    char text[32];
    int file = name ? open(name, O_WRONLY | O_CREAT | O_TRUNC, 0600) : -1;
    if (file >= 0) {
        int size = snprintf(text, sizeof text, "%lu\n", calls);
        if (write(file, text, size) != size)
            abort();
        close(file);
    }
}

/* A program may end without destructors. */
void _exit(int status)
{
    told();
    syscall(SYS_exit_group, status);
    abort();
}
