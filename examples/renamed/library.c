/* Another library, with other names for the same. */
#include "../common.h"

unsigned long StringLength(const char *text)
{
    unsigned long length = 0;
    while (text[length])
        length++;
    return length;
}

void WriteString(const char *text)
{
    system_call(1, 1, (long)text, (long)StringLength(text));
}
