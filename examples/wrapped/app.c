/* A program that allocates three times. It runs without a C library. */
void *malloc(unsigned long size);
unsigned long allocated(void);

static long call(long number, long a, long b, long c) {
  long result;
  __asm__ volatile("syscall"
                   : "=a"(result)
                   : "a"(number), "D"(a), "S"(b), "d"(c)
                   : "rcx", "r11", "memory");
  return result;
}

static void print(const char *text) {
  unsigned long length = 0;
  while (text[length]) length++;
  call(1, 1, (long)text, (long)length);
}

void print_number(const char *text, unsigned long number) {
  char digits[24];
  char *at = digits + 23;
  *at = 0;
  *--at = '\n';
  do *--at = (char)('0' + number % 10); while (number /= 10);
  print(text);
  print(at);
}

void _start(void) {
  malloc(100);
  malloc(20);
  malloc(3);
  print_number("allocated ", allocated());
  call(60, 0, 0, 0);
}
