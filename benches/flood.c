// Sends datagrams to a port of this machine for some seconds, and prints how many it sent.
//
//     flood PORT one|mixed RATE SECONDS [SOCKETS [NAMES]]
//
// `one` is datagrams of one counter's line, `mixed` of 40 lines of all kinds; both over so many names, 1,000 where that isn't
// said. RATE is in datagrams a second; 0 is as many as can be. They are sent over so many sockets in turn, 1 where that isn't
// said.
#define _GNU_SOURCE
#include <arpa/inet.h>
#include <errno.h>
#include <stdio.h>
#include <stdlib.h>
#include <string.h>
#include <sys/socket.h>
#include <time.h>

enum { TEXTS = 1000, MOST_TEXTS = 100000, LINES = 40, BATCH = 16, MOST_SOCKETS = 64 };

static char text[MOST_TEXTS][LINES * 48];
static size_t length[MOST_TEXTS];

static double now(void) {
    struct timespec t;
    clock_gettime(CLOCK_MONOTONIC, &t);
    return t.tv_sec + t.tv_nsec * 1e-9;
}

static int line(char *to, int i, int names) {
    int name = i % names;
    switch (i % 8) {
    case 0:
        return sprintf(to, "web.host%d.latency:%d|ms\n", name, i % 997);
    case 1:
        return sprintf(to, "web.host%d.users:u%d|s\n", name, i % 512);
    case 2:
        return sprintf(to, "web.host%d.load:%d.%d|g\n", name, i % 64, i % 10);
    default:
        return sprintf(to, "web.host%d.requests:%d|c%s\n", name, i % 3 + 1, i % 5 ? "" : "|@0.5");
    }
}

int main(int argc, char **argv) {
    int sockets = argc > 5 ? atoi(argv[5]) : 1, names = argc > 6 ? atoi(argv[6]) : 1000;
    if (argc < 5 || argc > 7 || sockets < 1 || sockets > MOST_SOCKETS || names < 1 || names > MOST_TEXTS) {
        fprintf(stderr, "usage: flood PORT one|mixed RATE SECONDS [SOCKETS [NAMES]]\n");
        return 2;
    }
    int lines = strcmp(argv[2], "one") ? LINES : 1;
    // (enough texts that each name is in one)
    int needed = lines == 1 ? names : names / 25, texts = needed > TEXTS ? needed : TEXTS;
    double rate = atof(argv[3]), seconds = atof(argv[4]);
    for (int i = 0; i < texts; i++)
        for (int j = 0; j < lines; j++)
            length[i] += lines == 1 ? sprintf(text[i], "web.host%d.requests:1|c\n", i % names) : line(text[i] + length[i], i * 37 + j * 101, names);

    struct sockaddr_in to = {.sin_family = AF_INET, .sin_port = htons(atoi(argv[1])), .sin_addr.s_addr = htonl(INADDR_LOOPBACK)};
    int s[MOST_SOCKETS];
    for (int i = 0; i < sockets; i++) {
        s[i] = socket(AF_INET, SOCK_DGRAM, 0);
        if (s[i] < 0 || connect(s[i], (struct sockaddr *)&to, sizeof to) < 0)
            return perror("flood"), 1;
    }
    struct iovec part[BATCH];
    struct mmsghdr batch[BATCH];
    memset(batch, 0, sizeof batch);
    for (int i = 0; i < BATCH; i++) {
        batch[i].msg_hdr.msg_iov = &part[i];
        batch[i].msg_hdr.msg_iovlen = 1;
    }
    unsigned long long sent = 0;
    double start = now(), at = start;
    for (unsigned next = 0, turn = 0; at - start < seconds; at = now()) {
        if (rate > 0 && sent >= (at - start) * rate) {
            struct timespec nap = {0, 50000};
            nanosleep(&nap, NULL);
            continue;
        }
        for (int i = 0; i < BATCH; i++, next = (next + 1) % texts)
            part[i] = (struct iovec){text[next], length[next]};
        int n = sendmmsg(s[turn++ % sockets], batch, BATCH, 0);
        if (n < 0 && errno != ECONNREFUSED && errno != ENOBUFS)
            return perror("flood"), 1;
        sent += n < 0 ? 0 : n;
    }
    printf("%llu\n", sent);
}
