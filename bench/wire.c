/* Datagrams without any work behind them, for bench/network.py.

     wire send ADDRESS COUNT BYTES   sends COUNT datagrams of so many bytes as fast as it can, and then END
     wire count ADDRESS              receives until END, or until nothing has come for a while

   ADDRESS is one as 127.0.0.1:9000. `send` tells `nanoseconds N`, the time of its loop. `count` tells
   `end datagrams D bytes B nanoseconds N`, or `idle` in place of `end`: what came, END too, and the time from the first
   datagram to the last that isn't END. */
#include <arpa/inet.h>
#include <errno.h>
#include <stdbool.h>
#include <stdio.h>
#include <stdlib.h>
#include <string.h>
#include <sys/socket.h>
#include <sys/time.h>
#include <time.h>

enum {
    MAX_BYTES = 640,
    FRAME_BYTES = 20,
    END_FRONT_BYTES = 4,
    FIRST_WAIT_SECONDS = 120,
    NEXT_WAIT_SECONDS = 20,
    ENDS = 10,
    NANOS_BETWEEN_ENDS = 10 * 1000 * 1000,
};

/* The front of an END, by which it is told from a data frame of any session. Zeros follow. */
static const unsigned char END[FRAME_BYTES] = {'K', 'K', 1, 1};

static void fail(const char *what) {
    perror(what);
    exit(1);
}

static long long now(void) {
    struct timespec at;
    if (clock_gettime(CLOCK_MONOTONIC, &at) != 0) fail("clock");
    return at.tv_sec * 1000000000LL + at.tv_nsec;
}

/* A word as an address, or the end of the program. */
static struct sockaddr_in address_of(const char *word) {
    struct sockaddr_in address = {.sin_family = AF_INET};
    char host[INET_ADDRSTRLEN] = "";
    const char *colon = strrchr(word, ':');
    if (colon != NULL && (size_t)(colon - word) < sizeof host) {
        memcpy(host, word, colon - word);
        address.sin_port = htons(atoi(colon + 1));
        if (inet_pton(AF_INET, host, &address.sin_addr) == 1) return address;
    }
    fprintf(stderr, "wire: %s is no address\n", word);
    exit(1);
}

static int open_socket(void) {
    int udp = socket(AF_INET, SOCK_DGRAM, 0);
    if (udp < 0) fail("socket");
    return udp;
}

static void wait_at_most(int udp, int seconds) {
    struct timeval wait = {.tv_sec = seconds};
    if (setsockopt(udp, SOL_SOCKET, SO_RCVTIMEO, &wait, sizeof wait) != 0) fail("wait");
}

static void send_to(int udp, const void *datagram, size_t bytes, const struct sockaddr_in *to) {
    if (sendto(udp, datagram, bytes, 0, (const struct sockaddr *)to, sizeof *to) < 0) fail("send");
}

/* END goes out several times, since a receiver that the loop overran may have no room for the first. */
static void send_ends(int udp, const struct sockaddr_in *to) {
    struct timespec between = {.tv_nsec = NANOS_BETWEEN_ENDS};
    for (int i = 0; i < ENDS; i++) {
        send_to(udp, END, FRAME_BYTES, to);
        nanosleep(&between, NULL);
    }
}

static void run_send(const char *address, long count, size_t bytes) {
    static const unsigned char datagram[MAX_BYTES];
    if (bytes < 1 || bytes > MAX_BYTES) {
        fprintf(stderr, "wire: a datagram has 1 to %d bytes\n", MAX_BYTES);
        exit(1);
    }
    struct sockaddr_in to = address_of(address);
    int udp = open_socket();
    long long began = now();
    for (long i = 0; i < count; i++) send_to(udp, datagram, bytes, &to);
    long long took = now() - began;
    send_ends(udp, &to);
    printf("nanoseconds %lld\n", took);
}

static void run_count(const char *address) {
    struct sockaddr_in at = address_of(address);
    int udp = open_socket();
    if (bind(udp, (struct sockaddr *)&at, sizeof at) != 0) fail("bind");
    wait_at_most(udp, FIRST_WAIT_SECONDS);
    unsigned char datagram[MAX_BYTES + 1];
    long long datagrams = 0, all_bytes = 0, first = 0, last = 0;
    bool ended = false;
    while (!ended) {
        ssize_t bytes = recv(udp, datagram, sizeof datagram, 0);
        if (bytes < 0 && errno != EAGAIN) fail("receive");
        if (bytes < 0) break;
        datagrams++;
        all_bytes += bytes;
        ended = bytes == FRAME_BYTES && memcmp(datagram, END, END_FRONT_BYTES) == 0;
        if (!ended) last = now();
        if (datagrams == 1) {
            first = last;
            wait_at_most(udp, NEXT_WAIT_SECONDS);
        }
    }
    printf("%s datagrams %lld bytes %lld nanoseconds %lld\n", ended ? "end" : "idle", datagrams, all_bytes, last - first);
}

int main(int words, char **word) {
    if (words == 5 && strcmp(word[1], "send") == 0) {
        run_send(word[2], atol(word[3]), atol(word[4]));
    } else if (words == 3 && strcmp(word[1], "count") == 0) {
        run_count(word[2]);
    } else {
        fputs("usage: wire send ADDRESS COUNT BYTES\n       wire count ADDRESS\n", stderr);
        return 2;
    }
    return 0;
}
