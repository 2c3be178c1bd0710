/* The library: twice calls speak, which is seen by all. */
#include "../common.h"

void speak(const char *text)
{
    print("lib: ");
    print(text);
    print("\n");
}

void twice(void)
{
    speak("once");
    speak("and again");
}
