/* The second user. */
const char *owner(void) { return "ben"; }
