/* What the examples print with: system calls of Linux, and no C library. Each function is local to
   the object that includes this, so no two objects clash over them. */
static inline long system_call(long number, long a, long b, long c)
{
    long result = number;
    __asm__ volatile("syscall" : "+a"(result) : "D"(a), "S"(b), "d"(c) : "rcx", "r11", "memory");
    return result;
}

static inline void print(const char *text)
{
    long length = 0;
    while (text[length])
        length++;
    system_call(1, 1, (long)text, length);
}

static inline void print_number(const char *text, unsigned long number, unsigned base)
{
    char digits[72];
    char *at = digits + 71;
    *at = 0;
    *--at = '\n';
    do
        *--at = "0123456789abcdef"[number % base];
    while (number /= base);
    print(text);
    print(at);
}

static inline void leave(long status)
{
    system_call(60, status, 0, 0);
    __builtin_unreachable();
}
