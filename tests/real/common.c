/* Tentative definitions: COMMON symbols where -fcommon is given. */
int count;
double wide[8];
char byte;
int *place(void) { return byte ? &count : (int *)wide; }
