/* For bench/session.sh: a program that answers each request with the same bytes, and one that asks
   it, or another, again and again, over two pipes.

     pipes answer BEGIN REPLY
     pipes ask SETUP BEGIN REQUEST REPLY COUNT PROGRAM WORD..

   `answer` answers what comes first with the file BEGIN, and each request behind it, of as many
   bytes as it has, with the file REPLY. `ask` starts PROGRAM, sends the file SETUP, and reads what
   must be the file BEGIN; then it sends the file REQUEST COUNT times, compares the first answer with
   the file REPLY and of each other the first bytes and the length, and prints the median round trip
   and the least, in microseconds. */
#define PROGRAM "pipes"
#include "bytes.h"
#include <string.h>
#include <sys/wait.h>
#include <unistd.h>

static void get(int from, unsigned char *to, size_t count)
{
    while (count) {
        ssize_t got = read(from, to, count);
        if (got <= 0)
            fail("the answers ended");
        to += got;
        count -= (size_t)got;
    }
}

static void put(int to, struct bytes bytes)
{
    while (bytes.size) {
        ssize_t count = write(to, bytes.at, bytes.size);
        if (count <= 0)
            fail("the program went away");
        bytes.at += count;
        bytes.size -= (size_t)count;
    }
}

/* Requests are whole in one read each, since the asker waits for every answer. */
static void answer(char **word)
{
    struct bytes begin = read_file(word[2]), reply = read_file(word[3]);
    unsigned char request[1 << 16];
    if (read(0, request, sizeof request) <= 0)
        fail("nothing came");
    put(1, begin);
    while (read(0, request, sizeof request) > 0)
        put(1, reply);
}

static void ask(char **word)
{
    struct bytes setup = read_file(word[2]), begin = read_file(word[3]);
    struct bytes request = read_file(word[4]), reply = read_file(word[5]);
    int count = atoi(word[6]), in[2], out[2];
    if (pipe(in) || pipe(out))
        fail("no pipe");
    if (fork() == 0) {
        dup2(in[0], 0);
        dup2(out[1], 1);
        close(in[1]);
        close(out[0]);
        execv(word[7], word + 7);
        fail(word[7]);
    }
    close(in[0]);
    close(out[1]);
    unsigned char *to = malloc(1 << 24);
    uint64_t *times = malloc(sizeof *times * (size_t)count);
    put(in[1], setup);
    get(out[0], to, begin.size);
    if (memcmp(to, begin.at, begin.size))
        fail("another beginning");
    for (int k = 0; k < count; k++) {
        uint64_t start = now();
        put(in[1], request);
        get(out[0], to, reply.size);
        times[k] = now() - start;
        if (memcmp(to, reply.at, k ? 4 : reply.size))
            fail("another answer");
    }
    close(in[1]);
    wait(0);
    qsort(times, (size_t)count, sizeof *times, order);
    printf("%.1f, least %.1f\n", (double)times[count / 2] / 1e3, (double)times[0] / 1e3);
}

int main(int words, char **word)
{
    if (words == 4 && !strcmp(word[1], "answer"))
        answer(word);
    else if (words > 7 && !strcmp(word[1], "ask") && atoi(word[6]) > 0)
        ask(word);
    else
        fail("usage: pipes answer BEGIN REPLY"
             " | ask SETUP BEGIN REQUEST REPLY COUNT PROGRAM WORD..");
    return 0;
}
