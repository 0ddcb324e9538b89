// Sends lines over connections to a port of this machine for some seconds, and prints how many it sent and how many seconds it
// took until all of them were read: the server closes a connection once it has read it to its end.
//
//     pour PORT CONNECTIONS SECONDS
//
// The lines are those of `flood`'s datagrams of 40 lines of all kinds over 1,000 names, in the same order on each connection,
// and as many are sent as can be, up to 64 KB at once. No connection ends within a line.
#define _GNU_SOURCE
#include <arpa/inet.h>
#include <errno.h>
#include <fcntl.h>
#include <poll.h>
#include <stdio.h>
#include <stdlib.h>
#include <sys/socket.h>
#include <time.h>
#include <unistd.h>

enum { NAMES = 1000, LINES = 40, MOST = 64, PART = 65536 };

static char text[NAMES * LINES * 48];

static double now(void) {
    struct timespec t;
    clock_gettime(CLOCK_MONOTONIC, &t);
    return t.tv_sec + t.tv_nsec * 1e-9;
}

static int line(char *to, int i) {
    int name = i % NAMES;
    switch (i % 8) {
    case 0:
        return sprintf(to, "web.host%d.latency:%d|ms\n", name, i % 997);
    case 1:
        return sprintf(to, "web.host%d.users:u%d|s\n", name, i % 512);
    case 2:
        return sprintf(to, "web.host%d.load:%d.%d|g\n", name, i % 64, i % 10);
    default:
        return sprintf(to, "web.host%d.requests:%d|c%s\n", name, i % 3 + 1, i % 5 ? "" : "|@0.5");
    }
}

int main(int argc, char **argv) {
    int count = argc == 4 ? atoi(argv[2]) : 0;
    if (count < 1 || count > MOST) {
        fprintf(stderr, "usage: pour PORT CONNECTIONS SECONDS, of 1 to %d connections\n", MOST);
        return 2;
    }
    double seconds = atof(argv[3]);
    size_t length = 0;
    for (int i = 0; i < NAMES; i++)
        for (int j = 0; j < LINES; j++)
            length += line(text + length, i * 37 + j * 101);

    struct sockaddr_in to = {.sin_family = AF_INET, .sin_port = htons(atoi(argv[1])), .sin_addr.s_addr = htonl(INADDR_LOOPBACK)};
    struct pollfd all[MOST];
    size_t at[MOST] = {0};
    for (int i = 0; i < count; i++) {
        all[i] = (struct pollfd){.fd = socket(AF_INET, SOCK_STREAM, 0), .events = POLLOUT};
        if (all[i].fd < 0 || connect(all[i].fd, (struct sockaddr *)&to, sizeof to) < 0)
            return perror("pour"), 1;
        fcntl(all[i].fd, F_SETFL, O_NONBLOCK);
    }
    unsigned long long sent = 0;
    double start = now();
    int is_over = 0;
    // once the seconds are over, each connection goes on to the end of its line
    for (int open = count; open > 0;) {
        if (poll(all, count, 1000) < 0)
            return perror("pour"), 1;
        is_over = is_over || now() - start >= seconds;
        for (int i = 0; i < count; i++) {
            if (!(all[i].revents & (POLLOUT | POLLERR | POLLHUP)) || !all[i].events)
                continue;
            size_t most = length - at[i] < PART ? length - at[i] : PART;
            if (is_over) {
                most = 0;
                while (at[i] > 0 && text[at[i] + most - 1] != '\n')
                    most++;
            }
            ssize_t n = most ? send(all[i].fd, text + at[i], most, MSG_NOSIGNAL) : 0;
            if (n < 0 && errno != EAGAIN)
                return perror("pour"), 1;
            for (ssize_t j = 0; j < n; j++)
                sent += text[at[i] + j] == '\n';
            at[i] = n > 0 ? (at[i] + n) % length : at[i];
            if (is_over && (at[i] == 0 || text[at[i] - 1] == '\n')) {
                shutdown(all[i].fd, SHUT_WR);
                all[i].events = 0;
                open--;
            }
        }
    }
    for (int i = 0; i < count; i++) {
        char rest;
        fcntl(all[i].fd, F_SETFL, 0);
        if (read(all[i].fd, &rest, 1) != 0)
            return perror("pour"), 1;
    }
    printf("%llu %f\n", sent, now() - start);
}
