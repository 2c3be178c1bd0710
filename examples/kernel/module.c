/* A module that is to be loaded beside the kernel: no start of its own. */
int module_answer(void) { return 42; }
