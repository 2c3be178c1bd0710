/* Another speak. */
#include "../common.h"

void speak(const char *text)
{
    print("mine: ");
    print(text);
    print("\n");
}
