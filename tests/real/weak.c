/* Weak definitions and references, and an alias. */
extern int maybe(int) __attribute__((weak));
__attribute__((weak)) int fallback(int n) { return n; }
int alias(int) __attribute__((alias("fallback")));
int call(int n) { return maybe ? maybe(n) : fallback(n); }
