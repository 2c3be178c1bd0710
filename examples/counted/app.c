/* A program that allocates twice itself, and three times through a library. */
#include "../common.h"

void *malloc(unsigned long size);
char *copied(const char *text);
void report(void);

void _start(void)
{
    char *letters = malloc(3);
    malloc(100);
    letters[0] = 'o';
    letters[1] = 'k';
    letters[2] = 0;
    print(copied(letters));
    print(copied(" and "));
    print(copied("done\n"));
    report();
    leave(0);
}
