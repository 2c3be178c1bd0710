/* The first user. */
const char *owner(void) { return "ann"; }
