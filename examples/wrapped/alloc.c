/* A bump allocator: what it hands out it never takes back. */
static unsigned char room[65536];
static unsigned long used;

void *malloc(unsigned long size) {
  void *at = room + used;
  used += (size + 15) & ~15ul;
  return at;
}

unsigned long allocated(void) { return used; }
