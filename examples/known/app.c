/* A program that speaks by a library, and lets the library speak. */
#include "../common.h"

void speak(const char *text);
void twice(void);

void _start(void)
{
    speak("app");
    twice();
    leave(0);
}
