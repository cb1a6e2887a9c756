/* A server of one thread over UDP and TCP by poll: the layers, the connections and the book of the library, which has as many slots
 * as there are CLIENTS, and a service of its own that answers A queries with 192.0.2.1.
 * usage: server PORT MESSAGES (it ends after that many messages, or after 10 s without one) */
#include <nutscythe.h>

#include <arpa/inet.h>
#include <poll.h>
#include <stdio.h>
#include <stdlib.h>
#include <string.h>
#include <sys/socket.h>
#include <time.h>
#include <unistd.h>

enum { CLIENTS = 32, IDLE = 5000 };

/* A connection, its peer, how many octets of its front frame were sent, and since when that frame is being sent. */
struct client {
    nutscythe_connection connection;
    struct sockaddr_in from;
    size_t sent;
    uint64_t since;
};

static const char text[] = "strict yes\nedns yes\nsecret 30313233343536373839616263646566\ndgram 1232 5000\n"
                           "stream 5000 2000 10 32 yes\nbudget 1000 1000\n";
static uint8_t message[65536], reply[65536], frame[65538];
static nutscythe_settings settings = NUTSCYTHE_NONE;
static nutscythe_book book = NUTSCYTHE_NONE;
static nutscythe_reader query = NUTSCYTHE_NONE;
static nutscythe_reply built = NUTSCYTHE_NONE;
static struct client clients[CLIENTS];
static struct pollfd ready[2 + CLIENTS];
static long left;

static uint64_t now_ms(clockid_t clock)
{
    struct timespec t;
    clock_gettime(clock, &t);
    return (uint64_t)t.tv_sec * 1000 + (uint64_t)t.tv_nsec / 1000000;
}

/* The service: an A record for each A query, else no record. The reply is built, and rewritten by the rule of its request. */
static uint32_t serve(const nutscythe_rule *rule, size_t len, size_t *reply_len)
{
    static const uint8_t address[] = {192, 0, 2, 1};
    uint8_t question[259];
    size_t question_len = 0;
    uint32_t section = NUTSCYTHE_ANSWER, status;
    if (nutscythe_message_read(message, len, &query) != NUTSCYTHE_DONE ||
        nutscythe_message_next(&query, question, sizeof question, &question_len, &section) != NUTSCYTHE_DONE ||
        section != NUTSCYTHE_QUESTION)
        return nutscythe_refuse(rule, message, len, 1, reply, sizeof reply, reply_len);
    status = nutscythe_reply_begin(message, len, 0, true, &built);
    if (status == NUTSCYTHE_DONE && question[question_len - 4] == 0 && question[question_len - 3] == 1)
        status = nutscythe_reply_add(&built, NUTSCYTHE_ANSWER, question, question_len - 4, 1, 1, 60, address, sizeof address);
    return status == NUTSCYTHE_DONE ? nutscythe_reply_write(&built, rule, reply, sizeof reply, reply_len)
                                    : nutscythe_refuse(rule, message, len, 2, reply, sizeof reply, reply_len);
}

/* How many octets of reply are to be sent for the message, or 0. */
static size_t decide(const struct sockaddr_in *from, size_t len, bool is_stream)
{
    nutscythe_rule rule = {0};
    size_t reply_len = 0;
    nutscythe_origin origin = {.at = now_ms(CLOCK_MONOTONIC), .secs = now_ms(CLOCK_REALTIME) / 1000, .size = IDLE,
                               .port = ntohs(from->sin_port), .family = 4, .over = 3};
    memcpy(origin.octets, &from->sin_addr, 4);
    left--;
    uint32_t status =
        is_stream ? nutscythe_decide(&settings, &origin, 1, message, len, reply, sizeof reply, &reply_len, &rule)
                  : nutscythe_datagram(&settings, &origin, 1, message, len, reply, sizeof reply, &reply_len, &rule);
    if (status == NUTSCYTHE_ASK)
        status = serve(&rule, len, &reply_len);
    return status == NUTSCYTHE_REPLY ? reply_len : 0;
}

static void datagram(int link)
{
    struct sockaddr_in from;
    socklen_t from_len = sizeof from;
    ssize_t len = recvfrom(link, message, sizeof message, 0, (struct sockaddr *)&from, &from_len);
    size_t reply_len = len < 0 ? 0 : decide(&from, (size_t)len, false);
    if (reply_len > 0)
        sendto(link, reply, reply_len, 0, (struct sockaddr *)&from, from_len);
}

static void end(int i)
{
    close(ready[i].fd);
    ready[i].fd = -1;
    nutscythe_free(&clients[i - 2].connection);
    nutscythe_book_call(&book, NUTSCYTHE_RELEASE);
}

static void offer(int link)
{
    struct sockaddr_in from;
    socklen_t from_len = sizeof from;
    int fd = accept(link, (struct sockaddr *)&from, &from_len), i = 2;
    if (fd < 0)
        return;
    if (nutscythe_book_call(&book, NUTSCYTHE_ADMIT) != NUTSCYTHE_DONE) {
        close(fd);
        return;
    }
    while (ready[i].fd >= 0)
        i++;
    if (nutscythe_connection_open(&settings, now_ms(CLOCK_MONOTONIC), &clients[i - 2].connection) != NUTSCYTHE_DONE) {
        close(fd);
        nutscythe_book_call(&book, NUTSCYTHE_RELEASE);
        return;
    }
    clients[i - 2].from = from;
    clients[i - 2].sent = 0;
    ready[i] = (struct pollfd){.fd = fd, .events = POLLIN};
}

/* Sends what waits, as far as the peer reads. False if the connection is to be closed. */
static bool flush(int i)
{
    struct client *client = &clients[i - 2];
    size_t frame_len;
    ready[i].events = POLLIN;
    while (nutscythe_connection_front(&client->connection, frame, sizeof frame, &frame_len) == NUTSCYTHE_DONE) {
        uint64_t now = now_ms(CLOCK_MONOTONIC);
        if (client->sent == 0)
            client->since = now;
        ssize_t took = send(ready[i].fd, frame + client->sent, frame_len - client->sent, MSG_NOSIGNAL | MSG_DONTWAIT);
        client->sent += took > 0 ? (size_t)took : 0;
        if (client->sent < frame_len) {
            ready[i].events = POLLIN | POLLOUT;
            return now - client->since <= 2000;
        }
        client->sent = 0;
        if (nutscythe_connection_written(&client->connection, now, now - client->since) != NUTSCYTHE_DONE)
            return false;
    }
    return true;
}

/* Takes each query that is whole now, and queues its reply. False if the connection is to be closed. */
static bool take(int i)
{
    struct client *client = &clients[i - 2];
    size_t len;
    for (;;) {
        uint64_t now = now_ms(CLOCK_MONOTONIC);
        uint32_t status = nutscythe_connection_next(&client->connection, now, message, sizeof message, &len);
        if (status == NUTSCYTHE_RESPONSE)
            continue;
        if (status != NUTSCYTHE_DONE)
            return status == NUTSCYTHE_NOTHING;
        size_t reply_len = decide(&client->from, len, true);
        if (reply_len > 0)
            nutscythe_connection_offer(&client->connection, now, reply, reply_len);
        if (!flush(i))
            return false;
    }
}

static void piece(int i)
{
    if (ready[i].revents & (POLLIN | POLLHUP | POLLERR)) {
        ssize_t got = recv(ready[i].fd, frame, sizeof frame, MSG_DONTWAIT);
        if (got <= 0 || nutscythe_connection_feed(&clients[i - 2].connection, frame, (size_t)got) != NUTSCYTHE_DONE ||
            !take(i)) {
            end(i);
            return;
        }
    }
    if (!flush(i))
        end(i);
}

int main(int argc, char **argv)
{
    struct sockaddr_in at = {.sin_family = AF_INET, .sin_addr.s_addr = htonl(INADDR_LOOPBACK)};
    nutscythe_line_refusal refusal;
    int on = 1;
    at.sin_port = htons((uint16_t)(argc > 1 ? atoi(argv[1]) : 5353));
    left = argc > 2 ? atol(argv[2]) : 100;
    for (int i = 0; i < 2 + CLIENTS; i++)
        ready[i] = (struct pollfd){.fd = i < 2 ? socket(AF_INET, i ? SOCK_STREAM : SOCK_DGRAM, 0) : -1, .events = POLLIN};
    setsockopt(ready[1].fd, SOL_SOCKET, SO_REUSEADDR, &on, sizeof on);
    if (nutscythe_settings_read((const uint8_t *)text, sizeof text - 1, &settings, &refusal) != NUTSCYTHE_DONE ||
        nutscythe_book_open(&settings, &book) != NUTSCYTHE_DONE ||
        bind(ready[0].fd, (struct sockaddr *)&at, sizeof at) || bind(ready[1].fd, (struct sockaddr *)&at, sizeof at) ||
        listen(ready[1].fd, CLIENTS)) {
        perror("server");
        return 1;
    }
    for (int quiet = 0; left > 0 && quiet < 10;) {
        quiet = poll(ready, 2 + CLIENTS, 1000) == 0 ? quiet + 1 : 0;
        for (int i = 0; i < 2 + CLIENTS; i++) {
            if (ready[i].fd >= 0 && ready[i].revents != 0)
                (i == 0 ? datagram(ready[i].fd) : i == 1 ? offer(ready[i].fd) : piece(i));
            else if (i > 1 && ready[i].fd >= 0 &&
                     nutscythe_connection_tick(&clients[i - 2].connection, now_ms(CLOCK_MONOTONIC)) != NUTSCYTHE_DONE)
                end(i);
        }
    }
    for (int i = 2; i < 2 + CLIENTS; i++)
        if (ready[i].fd >= 0)
            end(i);
    nutscythe_free(&built);
    nutscythe_free(&query);
    nutscythe_free(&book);
    nutscythe_free(&settings);
    return 0;
}
