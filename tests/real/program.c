/* A whole program: it prints the squares of small numbers and ends with their sum. */
static long system_call(long number, long a, long b, long c)
{
    long result;
    __asm__ volatile("syscall"
                     : "=a"(result)
                     : "a"(number), "D"(a), "S"(b), "d"(c)
                     : "rcx", "r11", "memory");
    return result;
}
int squares[10];
int limit = 7;
static void print(int n)
{
    char digits[12];
    int at = 12;
    digits[--at] = '\n';
    do {
        digits[--at] = '0' + n % 10;
        n /= 10;
    } while (n);
    system_call(1, 1, (long)&digits[at], 12 - at);
}
int (*const steps[])(int, int) = {0};
void _start(void)
{
    int sum = 0;
    for (int i = 0; i < limit; i++) {
        squares[i] = i * i;
        print(squares[i]);
        sum += squares[i];
    }
    system_call(60, sum & 127, 0, 0);
}
