/* A program that says who built it. */
#include "../common.h"

const char *owner(void);

void _start(void)
{
    print("built for ");
    print(owner());
    print("\n");
    leave(0);
}
