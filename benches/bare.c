// Reads the datagrams of a port and counts them, and nothing else, until it gets SIGTERM. Then it prints how many.
//
//     bare PORT
#include <arpa/inet.h>
#include <signal.h>
#include <stdio.h>
#include <stdlib.h>
#include <sys/socket.h>

static volatile sig_atomic_t stopped;

static void stop(int signal) {
    (void)signal;
    stopped = 1;
}

int main(int argc, char **argv) {
    struct sockaddr_in at = {.sin_family = AF_INET, .sin_port = htons(atoi(argc > 1 ? argv[1] : "0")), .sin_addr.s_addr = htonl(INADDR_LOOPBACK)};
    int s = socket(AF_INET, SOCK_DGRAM, 0);
    struct sigaction action = {.sa_handler = stop};
    sigaction(SIGTERM, &action, NULL);
    if (s < 0 || bind(s, (struct sockaddr *)&at, sizeof at) < 0)
        return perror("bare"), 1;
    static char buffer[65536];
    unsigned long long count = 0;
    while (!stopped)
        if (recv(s, buffer, sizeof buffer, 0) >= 0)
            count++;
    printf("packets %llu\n", count);
}
