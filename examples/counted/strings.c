/* A library that calls the allocator. */
void *malloc(unsigned long size);

char *copied(const char *text)
{
    unsigned long length = 0;
    while (text[length])
        length++;
    char *copy = malloc(length + 1);
    for (unsigned long k = 0; k <= length; k++)
        copy[k] = text[k];
    return copy;
}
