/* A program that calls speak by the name say. */
#include "../common.h"

void say(const char *text);

void _start(void)
{
    say("caller");
    leave(0);
}
