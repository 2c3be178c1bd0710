/* Another tone, and another unit. */
const char *mark(void) { return "!"; }
unsigned long celsius(unsigned long degrees) { return degrees * 9 / 5 + 32; }
