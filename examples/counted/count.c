/* A wrapper around malloc that counts calls and bytes, and a report of them. */
#include "../common.h"

void *plain_malloc(unsigned long size);

static unsigned long calls, bytes;

void *malloc(unsigned long size)
{
    calls++;
    bytes += size;
    return plain_malloc(size);
}

void report(void)
{
    print_number("calls of malloc: ", calls, 10);
    print_number("bytes asked for: ", bytes, 10);
}
