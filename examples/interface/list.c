/* A library for lists. It is made of more than one file, so its helper `skip` isn't static. */
const char *skip(const char *at)
{
    while (*at == '[' || *at == ' ' || *at == ',')
        at++;
    return at;
}

unsigned long sum_of_list(const char *at)
{
    unsigned long sum = 0;
    for (at = skip(at); *at != ']'; at = skip(at)) {
        unsigned long number = 0;
        while (*at >= '0' && *at <= '9')
            number = number * 10 + (unsigned long)(*at++ - '0');
        sum += number;
    }
    return sum;
}
