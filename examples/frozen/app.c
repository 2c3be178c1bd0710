/* A program with a logger of its own, that calls a library which has one too. */
#include "../common.h"

void work(void);
void log_line(const char *text);

void _start(void)
{
    log_line("the program begins");
    work();
    log_line("the program ends");
    leave(0);
}
