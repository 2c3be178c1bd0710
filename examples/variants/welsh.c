/* Another language. */
const char *greeting(void) { return "helo"; }
