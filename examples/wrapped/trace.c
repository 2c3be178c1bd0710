/* A wrapper around malloc that counts its calls, and prints each one's size. */
void *old_malloc(unsigned long size);
void print_number(const char *text, unsigned long number);

void *malloc(unsigned long size) {
  print_number("malloc ", size);
  return old_malloc(size);
}
