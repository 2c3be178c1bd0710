/* A freestanding program with constants, variables, zeros, a jump table and a weak name. */

static long system_call(long number, long a, long b, long c)
{
    long result;
    __asm__ volatile("syscall"
                     : "=a"(result)
                     : "a"(number), "D"(a), "S"(b), "d"(c)
                     : "rcx", "r11", "memory");
    return result;
}

static const char *const words[] = {"one", "two", "three"};
int counter = 5;     /* .data */
int squares[100];    /* .bss */
extern void hook(void) __attribute__((weak)); /* nothing defines it */

static long length(const char *text)
{
    long n = 0;
    while (text[n])
        n++;
    return n;
}

static void print(const char *text)
{
    system_call(1, 1, (long)text, length(text));
}

const char *numeral(int n)
{
    switch (n) { /* a jump table in .rodata */
    case 0: return "zero";
    case 1: return "uno";
    case 2: return "due";
    case 3: return "tre";
    case 4: return "quattro";
    case 5: return "cinque";
    }
    return "molti";
}

void _start(void)
{
    for (int i = 0; i < 3; i++) {
        print(words[i]);
        print(" ");
        print(numeral(counter - i));
        print("\n");
        squares[i] = i * i;
    }
    if (hook)
        hook();
    system_call(60, squares[2] + counter, 0, 0);
}
