/* What bench/hits.c and bench/pipes.c share: a file's bytes, the time, and the order of times.
   PROGRAM is the name that stands before a message. */
#include <stdint.h>
#include <stdio.h>
#include <stdlib.h>
#include <time.h>

struct bytes {
    unsigned char *at;
    size_t size;
};

static void fail(const char *text)
{
    fprintf(stderr, PROGRAM ": %s\n", text);
    exit(1);
}

static struct bytes read_file(const char *name)
{
    FILE *file = fopen(name, "rb");
    if (!file)
        fail(name);
    struct bytes bytes = {malloc(1 << 24), 0};
    bytes.size = fread(bytes.at, 1, 1 << 24, file);
    fclose(file);
    return bytes;
}

static uint64_t now(void)
{
    struct timespec t;
    clock_gettime(CLOCK_MONOTONIC, &t);
    return (uint64_t)t.tv_sec * 1000000000 + (uint64_t)t.tv_nsec;
}

static int order(const void *a, const void *b)
{
    uint64_t x = *(const uint64_t *)a, y = *(const uint64_t *)b;
    return (x > y) - (x < y);
}
