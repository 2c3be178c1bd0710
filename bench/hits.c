/* For bench/hits.sh: a server that answers each request with the same bytes, and a client that asks
   either server again and again.

     hits serve SOCKET REPLY
     hits ask SOCKET REQUEST REPLY CLIENTS COUNT held|new

   `ask` compares the first answer of each client with the file REPLY, byte for byte, and the
   lengths of the others; then it prints the median of all round trips in microseconds, and the
   answers a second of all clients together. */
#define PROGRAM "hits"
#include "bytes.h"
#include <pthread.h>
#include <string.h>
#include <sys/socket.h>
#include <sys/un.h>
#include <unistd.h>

static int read_all(int link, unsigned char *to, size_t count)
{
    while (count) {
        ssize_t got = read(link, to, count);
        if (got <= 0)
            return 0;
        to += got;
        count -= (size_t)got;
    }
    return 1;
}

static int write_all(int link, const unsigned char *from, size_t count)
{
    while (count) {
        ssize_t put = write(link, from, count);
        if (put <= 0)
            return 0;
        from += put;
        count -= (size_t)put;
    }
    return 1;
}

static struct sockaddr_un address_of(const char *name)
{
    struct sockaddr_un address = {.sun_family = AF_UNIX};
    strncpy(address.sun_path, name, sizeof address.sun_path - 1);
    return address;
}

/* ---- the server */

static struct bytes answer;

static void *serve_link(void *word)
{
    int link = (int)(intptr_t)word;
    unsigned char head[4], body[4096];
    while (read_all(link, head, 4)) {
        uint32_t length = head[0] | head[1] << 8 | head[2] << 16 | (uint32_t)head[3] << 24;
        if (length > sizeof body || !read_all(link, body, length))
            break;
        if (!write_all(link, answer.at, answer.size))
            break;
    }
    close(link);
    return 0;
}

static void serve(const char *name)
{
    struct sockaddr_un address = address_of(name);
    int door = socket(AF_UNIX, SOCK_STREAM, 0);
    if (bind(door, (struct sockaddr *)&address, sizeof address) || listen(door, 128))
        fail("no socket");
    for (;;) {
        int link = accept(door, 0, 0);
        pthread_t thread;
        if (link < 0 || pthread_create(&thread, 0, serve_link, (void *)(intptr_t)link))
            fail("no connection");
        pthread_detach(thread);
    }
}

/* ---- the clients */

static struct sockaddr_un server;
static struct bytes request, wanted;
static int count, anew;

static int connected(void)
{
    int link = socket(AF_UNIX, SOCK_STREAM, 0);
    if (connect(link, (struct sockaddr *)&server, sizeof server))
        fail("no server");
    return link;
}

static void *ask_all(void *word)
{
    uint64_t *times = word;
    unsigned char *reply = malloc(wanted.size);
    int link = anew ? -1 : connected();
    for (int k = 0; k < count; k++) {
        uint64_t start = now();
        if (anew)
            link = connected();
        if (!write_all(link, request.at, request.size) || !read_all(link, reply, wanted.size))
            fail("the server went away");
        if (anew)
            close(link);
        times[k] = now() - start;
        if (memcmp(reply, wanted.at, k == 0 ? wanted.size : 4))
            fail("another answer");
    }
    if (!anew)
        close(link);
    free(reply);
    return 0;
}

static void ask(int clients)
{
    uint64_t *times = malloc(sizeof *times * (size_t)(clients * count));
    pthread_t threads[64];
    uint64_t start = now();
    for (int k = 0; k < clients; k++)
        if (pthread_create(&threads[k], 0, ask_all, times + k * count))
            fail("no thread");
    for (int k = 0; k < clients; k++)
        pthread_join(threads[k], 0);
    double seconds = (double)(now() - start) / 1e9;
    qsort(times, (size_t)(clients * count), sizeof *times, order);
    printf("%.1f %.0f\n", (double)times[clients * count / 2] / 1e3, clients * count / seconds);
}

int main(int words, char **word)
{
    if (words == 4 && !strcmp(word[1], "serve")) {
        answer = read_file(word[3]);
        serve(word[2]);
    }
    if (words != 8 || strcmp(word[1], "ask") || atoi(word[5]) > 64)
        fail("usage: hits serve SOCKET REPLY | ask SOCKET REQUEST REPLY CLIENTS COUNT held|new");
    server = address_of(word[2]);
    request = read_file(word[3]);
    wanted = read_file(word[4]);
    count = atoi(word[6]);
    anew = !strcmp(word[7], "new");
    ask(atoi(word[5]));
    return 0;
}
