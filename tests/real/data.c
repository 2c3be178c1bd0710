/* Variables, zeros, constants and pointers to them. */
int one = 1;
int zeros[1000];
static int hidden = 3;
const char text[] = "text";
const char *const texts[] = {text, "literal"};
int *pointers[] = {&one, &zeros[7], &hidden};
int sum(void) { return one + zeros[3] + hidden + texts[1][0] + *pointers[2]; }
