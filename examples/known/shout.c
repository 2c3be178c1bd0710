/* The same by another name. */
#include "../common.h"

void shout(const char *text)
{
    print("SHOUT: ");
    print(text);
    print("\n");
}
