/* A program in parts that can be replaced: what it says, how loud, and in what unit. */
#include "../common.h"

const char *greeting(void);
const char *mark(void);
unsigned long celsius(unsigned long degrees);

void _start(void)
{
    print(greeting());
    print(mark());
    print_number(" ", celsius(20), 10);
    leave(0);
}
