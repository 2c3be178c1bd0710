/* A library that logs what it does, by a function that others may call too. */
#include "../common.h"

void log_line(const char *text)
{
    print("library: ");
    print(text);
    print("\n");
}

void work(void) { log_line("work is done"); }
