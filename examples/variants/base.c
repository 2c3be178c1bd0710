/* The parts as they are by default. */
const char *greeting(void) { return "hello"; }
const char *mark(void) { return "."; }
unsigned long celsius(unsigned long degrees) { return degrees; }
