/* Asks an HTTP server on 127.0.0.1 again and again, over a connection for each request, and tells how long that took.

   usage: client PORT COUNT SEED FILE STATUS BYTES

   FILE has requests, each behind a line with its length. With SEED 0 they are sent in turn, else at random. With COUNT 0 it goes
   on until standard input ends. Each reply has to have the STATUS, and BYTES bytes of body, where that is not -1.
   It begins when it gets a line. Prints the moments when it began and ended, how many requests that were, and how long the
   longest took, all in nanoseconds. Exit status 1 where a reply was another, or a call failed. */
#define _GNU_SOURCE
#include <arpa/inet.h>
#include <poll.h>
#include <stdint.h>
#include <stdio.h>
#include <stdlib.h>
#include <string.h>
#include <sys/socket.h>
#include <time.h>
#include <unistd.h>

enum { MOST_HEAD = 4096, MOST_BODY = 8388608 };

struct request {
    char *bytes;
    size_t count;
};

static uint64_t now(void)
{
    struct timespec at;
    clock_gettime(CLOCK_MONOTONIC, &at);
    return (uint64_t)at.tv_sec * 1000000000u + (uint64_t)at.tv_nsec;
}

static void stop(const char *why)
{
    fprintf(stderr, "client: %s\n", why);
    exit(1);
}

static struct request *read_requests(const char *file, size_t *count)
{
    FILE *in = fopen(file, "rb");
    struct request *requests = NULL;
    size_t size;
    *count = 0;
    if (!in)
        stop("no file of requests");
    while (fscanf(in, "%zu", &size) == 1 && getc(in) == '\n') {
        struct request *it;
        requests = realloc(requests, (*count + 1) * sizeof *requests);
        if (!requests)
            stop("no memory");
        it = &requests[(*count)++];
        it->count = size;
        it->bytes = malloc(size);
        if (!it->bytes || fread(it->bytes, 1, size, in) != size)
            stop("a request was not read");
    }
    fclose(in);
    if (!*count)
        stop("no request");
    return requests;
}

/* One request and its reply. */
static void fetch(const struct sockaddr_in *address, const struct request *request, char *room, const char *status, long bytes)
{
    int one = socket(AF_INET, SOCK_STREAM, 0);
    size_t sent = 0, came = 0;
    char *end;
    if (one < 0 || connect(one, (const struct sockaddr *)address, sizeof *address))
        stop("no connection");
    while (sent < request->count) {
        ssize_t gone = send(one, request->bytes + sent, request->count - sent, MSG_NOSIGNAL);
        if (gone < 0)
            stop("a request was not sent");
        sent += (size_t)gone;
    }
    for (;;) {
        ssize_t got = recv(one, room + came, MOST_HEAD + MOST_BODY - came, 0);
        if (got < 0)
            stop("a reply was not read");
        if (!got)
            break;
        came += (size_t)got;
    }
    close(one);
    end = memmem(room, came < MOST_HEAD ? came : MOST_HEAD, "\r\n\r\n", 4);
    if (!end || memcmp(room + 9, status, 3) || (bytes >= 0 && came - (size_t)(end + 4 - room) != (size_t)bytes)) {
        fprintf(stderr, "client: a reply of %zu bytes: %.*s\n", came, (int)(came < 64 ? came : 64), room);
        exit(1);
    }
}

/* Whether there is more on standard input, or its end. */
static int is_told(void)
{
    struct pollfd in = { .fd = 0, .events = POLLIN };
    return poll(&in, 1, 0) > 0;
}

int main(int argc, char **argv)
{
    struct sockaddr_in address = { .sin_family = AF_INET };
    struct request *requests;
    size_t several;
    char *room = malloc(MOST_HEAD + MOST_BODY);
    uint64_t begun, before, after, longest = 0, state;
    long count, seed, done = 0;
    if (argc != 7)
        stop("usage: client PORT COUNT SEED FILE STATUS BYTES");
    address.sin_port = htons((uint16_t)atoi(argv[1]));
    address.sin_addr.s_addr = htonl(INADDR_LOOPBACK);
    count = atol(argv[2]);
    seed = atol(argv[3]);
    requests = read_requests(argv[4], &several);
    if (!room)
        stop("no memory");
    puts("ready");
    fflush(stdout);
    if (getchar() == EOF)
        return 1;
    state = (uint64_t)seed;
    begun = before = after = now();
    while (count ? done < count : !is_told()) {
        size_t at = (size_t)done % several;
        if (seed) {
            state = state * 6364136223846793005u + 1442695040888963407u;
            at = (size_t)((state >> 33) % several);
        }
        before = after;
        fetch(&address, &requests[at], room, argv[5], atol(argv[6]));
        after = now();
        if (after - before > longest)
            longest = after - before;
        done++;
    }
    printf("%llu %llu %ld %llu\n", (unsigned long long)begun, (unsigned long long)after, done, (unsigned long long)longest);
    return 0;
}
