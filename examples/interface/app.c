/* A program that reads numbers by two libraries. */
#include "../common.h"

unsigned long sum_of_list(const char *text);
unsigned long sum_of_table(const char *text);

void _start(void)
{
    print_number("list ", sum_of_list("[1, 20, 300]"), 10);
    print_number("table ", sum_of_table("4;5\n6;70\n"), 10);
    leave(0);
}
