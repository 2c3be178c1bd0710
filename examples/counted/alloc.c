/* A bump allocator. Its calloc calls its own malloc. `report` does nothing here. */
static unsigned char room[65536];
static unsigned long used;

void *malloc(unsigned long size)
{
    void *at = room + used;
    used += (size + 15) & ~15ul;
    return at;
}

void *calloc(unsigned long count, unsigned long size) { return malloc(count * size); }

void report(void) {}
