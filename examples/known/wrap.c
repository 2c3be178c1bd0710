/* A wrapper by the names that ld --wrap speaks of. */
#include "../common.h"

void __real_speak(const char *text);

void __wrap_speak(const char *text)
{
    print("wrapped: ");
    __real_speak(text);
}
