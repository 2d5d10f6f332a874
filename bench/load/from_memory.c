/* A server that answers from memory, one connection after another: what a program can do at most that sends a page by one call.

   usage: from_memory PORT FOLDER LIST

   LIST has a path a line, as /en/main/p0.html; each is a file below FOLDER, whose reply is made when the server starts. It stops
   when its standard input ends. */
#define _GNU_SOURCE
#include <arpa/inet.h>
#include <netinet/tcp.h>
#include <poll.h>
#include <search.h>
#include <stdint.h>
#include <stdio.h>
#include <stdlib.h>
#include <string.h>
#include <sys/socket.h>
#include <unistd.h>

enum { MOST_HEAD = 4096, WAITING = 128 };

struct reply {
    char *bytes;
    size_t count;
};

static void stop(const char *why)
{
    fprintf(stderr, "from_memory: %s\n", why);
    exit(1);
}

static struct reply *made(const char *folder, const char *path)
{
    char name[2 * MOST_HEAD];
    struct reply *it = malloc(sizeof *it);
    long size;
    int head;
    FILE *in;
    snprintf(name, sizeof name, "%s%s", folder, path);
    in = fopen(name, "rb");
    if (!it || !in || fseek(in, 0, SEEK_END) || (size = ftell(in)) < 0 || fseek(in, 0, SEEK_SET))
        stop("a page is not there");
    it->bytes = malloc((size_t)size + MOST_HEAD);
    if (!it->bytes)
        stop("no memory");
    head = sprintf(it->bytes, "HTTP/1.1 200 OK\r\nContent-Type: text/html\r\nContent-Length: %ld\r\nConnection: close\r\n\r\n", size);
    if (fread(it->bytes + head, 1, (size_t)size, in) != (size_t)size)
        stop("a page was not read");
    it->count = (size_t)head + (size_t)size;
    fclose(in);
    return it;
}

static void make_all(const char *folder, const char *list)
{
    FILE *in = fopen(list, "r");
    char line[MOST_HEAD];
    if (!in || !hcreate(65536))
        stop("no list");
    while (fgets(line, sizeof line, in)) {
        ENTRY entry;
        line[strcspn(line, "\n")] = 0;
        entry.key = strdup(line);
        entry.data = made(folder, line);
        if (!entry.key || !hsearch(entry, ENTER))
            stop("no memory");
    }
    fclose(in);
}

static void answer(int one)
{
    char room[MOST_HEAD + 1], *path, *end;
    size_t came = 0, gone = 0;
    ENTRY *found, asked;
    const struct reply *it;
    int yes = 1;
    setsockopt(one, IPPROTO_TCP, TCP_NODELAY, &yes, sizeof yes);
    do {
        ssize_t got = recv(one, room + came, MOST_HEAD - came, 0);
        if (got <= 0)
            return;
        came += (size_t)got;
        room[came] = 0;
    } while (!strstr(room, "\r\n\r\n") && came < MOST_HEAD);
    if (memcmp(room, "GET ", 4) || !(end = strchr(path = room + 4, ' ')))
        return;
    *end = 0;
    asked.key = path;
    found = hsearch(asked, FIND);
    if (!found)
        return;
    it = found->data;
    while (gone < it->count) {
        ssize_t sent = send(one, it->bytes + gone, it->count - gone, MSG_NOSIGNAL);
        if (sent <= 0)
            return;
        gone += (size_t)sent;
    }
}

int main(int argc, char **argv)
{
    struct sockaddr_in address = { .sin_family = AF_INET };
    struct pollfd asked[2] = { { .fd = 0, .events = POLLIN }, { .events = POLLIN } };
    int yes = 1;
    if (argc != 4)
        stop("usage: from_memory PORT FOLDER LIST");
    make_all(argv[2], argv[3]);
    address.sin_port = htons((uint16_t)atoi(argv[1]));
    address.sin_addr.s_addr = htonl(INADDR_LOOPBACK);
    asked[1].fd = socket(AF_INET, SOCK_STREAM, 0);
    setsockopt(asked[1].fd, SOL_SOCKET, SO_REUSEADDR, &yes, sizeof yes);
    if (bind(asked[1].fd, (struct sockaddr *)&address, sizeof address) || listen(asked[1].fd, WAITING))
        stop("no port");
    while (poll(asked, 2, -1) > 0 && !asked[0].revents) {
        int one = accept(asked[1].fd, NULL, NULL);
        if (one >= 0) {
            answer(one);
            close(one);
        }
    }
    return 0;
}
