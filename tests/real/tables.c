/* Jump tables, a constructor, and names of other objects. */
extern int outside(int);
extern int table[];
__attribute__((constructor)) static void begin(void) { table[0] = outside(1); }
int choose(int n)
{
    switch (n) {
    case 0: return outside(9); case 1: return table[2]; case 2: return 77; case 3: return outside(-1);
    case 4: return table[8] + 1; case 5: return 1234; case 6: return outside(3) + 5; case 7: return 9;
    }
    return 0;
}
