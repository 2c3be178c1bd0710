/* A library for tables, of another author, who has a helper of the same name. */
const char *skip(const char *at)
{
    while (*at == ';' || *at == '\n')
        at++;
    return at;
}

unsigned long sum_of_table(const char *at)
{
    unsigned long sum = 0;
    for (at = skip(at); *at; at = skip(at)) {
        unsigned long cell = (unsigned long)(*at++ - '0');
        for (; *at >= '0' && *at <= '9'; at++)
            cell = cell * 10 + (unsigned long)(*at - '0');
        sum += cell;
    }
    return sum;
}
