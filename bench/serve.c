/* The peers of bench/serve: two plain servers that send back what comes, and the client that drives them and `serve` alike, all on
 * 127.0.0.1. Each ends by itself: a server after 300 s at most, the client after the time that it is given and half a second more.
 *
 * Usage: serve echo-udp            one loop of recvfrom and sendto; prints its port
 *        serve echo-tcp            a thread for each connection, which sends back each message, with its length, by a write of its own;
 *                                  prints its port
 *        serve echo-pieces         the same, but for whole pieces: what one read gave goes back by one write
 *        serve udp PORT WINDOW MILLIS             that many queries in flight, from one socket
 *        serve paced PORT RATE MILLIS             that many queries a second, each sent at its time
 *        serve tcp PORT CONNECTIONS WINDOW MILLIS that many queries in flight on each connection
 *
 * The client prints one line of numbers: replies, lost queries, nanoseconds; and after these, for `paced`, the latencies in
 * nanoseconds below which half, 99 % and all of the queries were answered. A reply is what has the identifier of a query in flight. */
#include <arpa/inet.h>
#include <errno.h>
#include <inttypes.h>
#include <netinet/in.h>
#include <netinet/tcp.h>
#include <poll.h>
#include <pthread.h>
#include <signal.h>
#include <stdbool.h>
#include <stdint.h>
#include <stdio.h>
#include <stdlib.h>
#include <string.h>
#include <sys/socket.h>
#include <time.h>
#include <unistd.h>

/* A query for the root's address, RD set, after its length; the identifier is written over octets 2 and 3. */
static const uint8_t QUERY[19] = {0, 17, 0, 0, 1, 0, 0, 1, 0, 0, 0, 0, 0, 0, 0, 0, 1, 0, 1};
enum { LENGTH = 17, PIECE = 65536, MOST_WINDOW = 256, MOST_CONNECTIONS = 64, MOST_PACED = 1000000 };

static void stop(const char *what) {
    perror(what);
    exit(1);
}

static uint64_t now(void) {
    struct timespec t;
    clock_gettime(CLOCK_MONOTONIC, &t);
    return (uint64_t)t.tv_sec * 1000000000u + (uint64_t)t.tv_nsec;
}

static struct sockaddr_in at(int port) {
    struct sockaddr_in a = {.sin_family = AF_INET, .sin_port = htons((uint16_t)port)};
    a.sin_addr.s_addr = htonl(INADDR_LOOPBACK);
    return a;
}

static int bound(int type) {
    int s = socket(AF_INET, type, 0);
    struct sockaddr_in a = at(0);
    socklen_t size = sizeof a;
    if (s < 0 || bind(s, (struct sockaddr *)&a, sizeof a) < 0) stop("bind");
    if (type == SOCK_STREAM && listen(s, 128) < 0) stop("listen");
    if (getsockname(s, (struct sockaddr *)&a, &size) < 0) stop("getsockname");
    printf("%d\n", ntohs(a.sin_port));
    fflush(stdout);
    return s;
}

static int joined(int type, int port) {
    int s = socket(AF_INET, type, 0), one = 1;
    struct sockaddr_in a = at(port);
    if (s < 0 || connect(s, (struct sockaddr *)&a, sizeof a) < 0) stop("connect");
    if (type == SOCK_STREAM) setsockopt(s, IPPROTO_TCP, TCP_NODELAY, &one, sizeof one);
    return s;
}

/* ---- The servers ---- */

static void echo_udp(void) {
    uint8_t buffer[1024];
    int s = bound(SOCK_DGRAM);
    for (;;) {
        struct sockaddr_in from;
        socklen_t size = sizeof from;
        ssize_t n = recvfrom(s, buffer, sizeof buffer, 0, (struct sockaddr *)&from, &size);
        if (n >= 0) sendto(s, buffer, (size_t)n, 0, (struct sockaddr *)&from, size);
    }
}

static bool write_all(int s, const uint8_t *octets, size_t count) {
    while (count > 0) {
        ssize_t n = write(s, octets, count);
        if (n <= 0) return false;
        octets += n;
        count -= (size_t)n;
    }
    return true;
}

static bool whole_pieces;

static void *connection(void *argument) {
    int s = (int)(intptr_t)argument;
    uint8_t *buffer = malloc(2 * PIECE + 2);
    size_t have = 0;
    ssize_t n;
    while (buffer && (n = read(s, buffer + have, PIECE)) > 0) {
        size_t from = 0;
        have += (size_t)n;
        if (whole_pieces) {
            if (!write_all(s, buffer, have)) break;
            have = 0;
            continue;
        }
        while (have - from >= 2) {
            size_t size = 2 + ((size_t)buffer[from] << 8 | buffer[from + 1]);
            if (have - from < size) break;
            if (!write_all(s, buffer + from, size)) goto over;
            from += size;
        }
        memmove(buffer, buffer + from, have - from);
        have -= from;
    }
over:
    free(buffer);
    close(s);
    return NULL;
}

static void echo_tcp(void) {
    int s = bound(SOCK_STREAM), one = 1;
    for (;;) {
        pthread_t thread;
        int c = accept(s, NULL, NULL);
        if (c < 0) continue;
        setsockopt(c, IPPROTO_TCP, TCP_NODELAY, &one, sizeof one);
        if (pthread_create(&thread, NULL, connection, (void *)(intptr_t)c) != 0) close(c);
        else pthread_detach(thread);
    }
}

/* ---- The client ---- */

static uint64_t replies, lost;

static void named(uint8_t *query, unsigned id) {
    query[0] = (uint8_t)(id >> 8);
    query[1] = (uint8_t)id;
}

static void send_query(int s, unsigned id) {
    uint8_t query[LENGTH];
    memcpy(query, QUERY + 2, LENGTH);
    named(query, id);
    if (send(s, query, LENGTH, 0) != LENGTH && errno != EAGAIN && errno != ENOBUFS) stop("send");
}

/* Each identifier below the window is that of one query in flight, and is sent again once its reply is there. If nothing comes
 * for 100 ms, the queries in flight are lost, and all are sent anew under identifiers of another row. The client never sleeps, so no
 * server has to wake it. */
static void udp(int port, unsigned window, uint64_t millis) {
    int s = joined(SOCK_DGRAM, port);
    uint64_t at, heard = now(), end = heard + millis * 1000000;
    unsigned row = 0;
    uint8_t buffer[4096];
    for (unsigned i = 0; i < window; i++) send_query(s, i);
    while ((at = now()) < end) {
        ssize_t n = recv(s, buffer, sizeof buffer, MSG_DONTWAIT);
        if (n < 0) {
            if (at - heard < 100000000) continue;
            heard = at;
            lost += window;
            row = (row + 1) % 128;
            for (unsigned i = 0; i < window; i++) send_query(s, row * MOST_WINDOW + i);
            continue;
        }
        unsigned id = n >= 12 ? (unsigned)buffer[0] << 8 | buffer[1] : 65535;
        if (id / MOST_WINDOW != row || id % MOST_WINDOW >= window) continue;
        heard = at;
        replies++;
        send_query(s, id);
    }
}

static uint64_t sent_at[MOST_PACED], took[MOST_PACED];

static int by_size(const void *a, const void *b) {
    uint64_t x = *(const uint64_t *)a, y = *(const uint64_t *)b;
    return x < y ? -1 : x > y;
}

/* Takes the replies that are there. Query i has the identifier i modulo 65,536, and counts as lost if its reply comes later than
 * 65,535 others were sent. */
static void take_paced(int s, uint64_t count) {
    uint8_t buffer[4096];
    ssize_t n;
    while ((n = recv(s, buffer, sizeof buffer, MSG_DONTWAIT)) >= 12) {
        uint64_t id = (uint64_t)buffer[0] << 8 | buffer[1];
        uint64_t last = count - 1;
        uint64_t i = last - ((last - id) & 65535);
        if (i < count && took[i] == 0) {
            took[i] = now() - sent_at[i];
            replies++;
        }
    }
}

static void paced(int port, uint64_t rate, uint64_t millis) {
    int s = joined(SOCK_DGRAM, port);
    uint64_t start = now(), gap = 1000000000 / rate, count = 0, end = start + millis * 1000000, at;
    while (count < MOST_PACED && (at = start + count * gap) < end) {
        while (now() < at) {
            if (count > 0) take_paced(s, count);
        }
        sent_at[count] = now();
        send_query(s, (unsigned)(count & 65535));
        count++;
        take_paced(s, count);
    }
    while (replies < count && now() < end + 500000000) take_paced(s, count);
    lost = count - replies;
    uint64_t kept = 0;
    for (uint64_t i = 0; i < count; i++)
        if (took[i] != 0) took[kept++] = took[i];
    qsort(took, kept, sizeof took[0], by_size);
}

/* One connection: what of a reply is there, and how many queries are in flight. */
struct stream {
    int socket;
    size_t have;
    unsigned in_flight;
    uint8_t buffer[PIECE];
};

static void ask(struct stream *c, unsigned window) {
    uint8_t all[MOST_WINDOW * sizeof QUERY];
    size_t size = 0;
    for (; c->in_flight < window; c->in_flight++, size += sizeof QUERY) {
        memcpy(all + size, QUERY, sizeof QUERY);
        named(all + size + 2, c->in_flight);
    }
    if (size > 0 && !write_all(c->socket, all, size)) stop("write");
}

/* Takes the whole replies that one read gives. */
static void take(struct stream *c) {
    size_t from = 0;
    ssize_t n = recv(c->socket, c->buffer + c->have, sizeof c->buffer - c->have, MSG_DONTWAIT);
    if (n < 0 && errno == EAGAIN) return;
    if (n <= 0) stop("a connection ended");
    c->have += (size_t)n;
    while (c->have - from >= 2) {
        size_t size = 2 + ((size_t)c->buffer[from] << 8 | c->buffer[from + 1]);
        if (size < 14) stop("a reply is too short");
        if (c->have - from < size) break;
        from += size;
        c->in_flight--;
        replies++;
    }
    memmove(c->buffer, c->buffer + from, c->have - from);
    c->have -= from;
}

static void tcp(int port, unsigned connections, unsigned window, uint64_t millis) {
    static struct stream streams[MOST_CONNECTIONS];
    struct pollfd waits[MOST_CONNECTIONS];
    for (unsigned i = 0; i < connections; i++) {
        streams[i].socket = joined(SOCK_STREAM, port);
        waits[i] = (struct pollfd){.fd = streams[i].socket, .events = POLLIN};
    }
    uint64_t end = now() + millis * 1000000;
    for (unsigned i = 0; i < connections; i++) ask(&streams[i], window);
    while (now() < end) {
        if (poll(waits, connections, 0) <= 0) continue;
        for (unsigned i = 0; i < connections; i++) {
            if (waits[i].revents == 0) continue;
            take(&streams[i]);
            if (2 * streams[i].in_flight <= window) ask(&streams[i], window);
        }
    }
}

static uint64_t number(const char *text, uint64_t most) {
    char *end;
    uint64_t n = strtoull(text, &end, 10);
    if (*text == 0 || *end != 0 || n > most) {
        fprintf(stderr, "serve: %s is no number up to %" PRIu64 "\n", text, most);
        exit(2);
    }
    return n;
}

int main(int count, char **words) {
    alarm(300);
    signal(SIGPIPE, SIG_IGN);
    if (count == 2 && strcmp(words[1], "echo-udp") == 0) echo_udp();
    whole_pieces = count == 2 && strcmp(words[1], "echo-pieces") == 0;
    if (whole_pieces || (count == 2 && strcmp(words[1], "echo-tcp") == 0)) echo_tcp();
    if (count < 5) return 2;
    int port = (int)number(words[2], 65535);
    uint64_t millis = number(words[count - 1], 60000), start = now();
    if (count == 5 && strcmp(words[1], "udp") == 0) udp(port, (unsigned)number(words[3], MOST_WINDOW), millis);
    else if (count == 5 && strcmp(words[1], "paced") == 0) paced(port, number(words[3], 1000000), millis);
    else if (count == 6 && strcmp(words[1], "tcp") == 0)
        tcp(port, (unsigned)number(words[3], MOST_CONNECTIONS), (unsigned)number(words[4], MOST_WINDOW), millis);
    else return 2;
    printf("%" PRIu64 " %" PRIu64 " %" PRIu64, replies, lost, now() - start);
    if (words[1][0] == 'p' && replies > 0)
        printf(" %" PRIu64 " %" PRIu64 " %" PRIu64, took[replies / 2], took[replies * 99 / 100], took[replies - 1]);
    printf("\n");
    return 0;
}
