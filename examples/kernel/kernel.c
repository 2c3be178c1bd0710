/* A kernel-like image: it knows where it was placed, and has page tables of a page's alignment. */
#include "../common.h"

extern char kernel_start[];
unsigned long tables[512] __attribute__((aligned(4096)));

void kernel_main(void)
{
    unsigned long page = (unsigned long)kernel_start & ~4095ul;
    for (unsigned k = 0; k < 512; k++)
        tables[k] = (k << 21) | 0x83; /* present, writable, large */
    print_number("code begins at 0x", page, 16);
    print((unsigned long)tables % 4096 ? "tables are not aligned\n" : "tables are aligned\n");
    print_number("the last one maps 0x", tables[511] & ~0xfffl, 16);
}
