/* A program that was written for one library. */
#include "../common.h"

void put_text(const char *text);
unsigned long text_size(const char *text);

void _start(void)
{
    put_text("seven letters: ");
    put_text(text_size("letters") == 7 ? "yes\n" : "no\n");
    leave(0);
}
