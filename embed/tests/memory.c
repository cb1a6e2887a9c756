/* Refuses each request for memory in turn: a status, nothing written, and nothing lost, since the same call is done once there is
 * memory, and all that follows gives what it gives with enough of it. Link it with -Wl,--wrap=malloc,--wrap=realloc,--wrap=free. */
#include <nutscythe.h>

#undef NDEBUG
#include <assert.h>
#include <stdio.h>
#include <stdlib.h>
#include <string.h>

static long left = -1, live = 0;
void *__real_malloc(size_t), *__real_realloc(void *, size_t);
void __real_free(void *);

static int refused(void) { return left >= 0 && left-- == 0; }

void *__wrap_malloc(size_t n)
{
    void *block = refused() ? NULL : __real_malloc(n);
    live += block != NULL;
    return block;
}

void *__wrap_realloc(void *old, size_t n) { return refused() ? NULL : __real_realloc(old, n); }

void __wrap_free(void *block)
{
    live -= block != NULL;
    __real_free(block);
}

static const uint8_t query[] = "\x12\x34\x01\x00\x00\x01\x00\x00\x00\x00\x00\x01\x07" "example\x03" "com\x00\x00\x01\x00\x01"
                               "\x00\x00\x29\x04\xd0\x00\x00\x00\x00\x00\x00";
static const uint8_t answer[] = "\x12\x34\x85\x00\x00\x01\x00\x01\x00\x00\x00\x00\x07" "example\x03" "com\x00\x00\x01\x00\x01"
                                "\xc0\x0c\x00\x01\x00\x01\x00\x00\x00\x3c\x00\x04\xc0\x00\x02\x01";
static const uint8_t notify[] = "\x12\x34\x24\x00\x00\x01\x00\x00\x00\x00\x00\x00\x07" "example\x03" "com\x00\x00\x06\x00\x01";
static const uint8_t response[] = "\x12\x34\x80\x00\x00\x00\x00\x00\x00\x00\x00\x00";
static const uint8_t stream[] = "\0\x0c" "abcdefghijkl" "\0\x0c" "\x12\x34\x80\x00\x00\x00\x00\x00\x00\x00\x00\x00";
static const char text[] = "strict yes\ndeny 192.0.2.9\nsecret 30313233343536373839616263646566\n";
static const uint8_t data[240];

/* All that a call may write, now and before a call; how many calls had no memory; and a sum of all that was written. */
static struct output {
    uint8_t octets[1300];
    size_t len;
    uint32_t section, request;
    nutscythe_rule rule;
    nutscythe_line_refusal refusal;
    nutscythe_handle settings, copy, connection, built, reader, book;
} now, before;
static int lacked;
static uint64_t sum;

static void add(const void *written, size_t size)
{
    for (size_t i = 0; i < size; i++)
        sum = (sum ^ ((const uint8_t *)written)[i]) * 1099511628211u;
}

/* The status that is wanted. What was written goes into the sum, and is something else before the next call. */
static void is(uint32_t status, uint32_t wanted)
{
    if (status != wanted) {
        fprintf(stderr, "status %u, wanted %u\n", status, wanted);
        abort();
    }
    add(now.octets, sizeof now.octets);
    add(&now.len, sizeof now.len);
    add(&now.section, sizeof now.section);
    add(&now.request, sizeof now.request);
    add(&now.rule, sizeof now.rule);
    memset(now.octets, 7, sizeof now.octets);
    now.len = now.section = 99;
}

/* A call that may have no memory: then all is as it was, and the same call is done with memory. */
#define TRY(wanted, call)                                        \
    do {                                                         \
        memcpy(&before, &now, sizeof now);                       \
        uint32_t status = (call);                                \
        if (status == NUTSCYTHE_NO_MEMORY) {                     \
            lacked++;                                            \
            assert(memcmp(&before, &now, sizeof now) == 0);      \
            status = (call);                                     \
        }                                                        \
        is(status, wanted);                                      \
    } while (0)

static void settings(void)
{
    static const uint8_t address[] = {192, 0, 2, 7};
    /* The handle holds settings before it is given others. */
    TRY(NUTSCYTHE_DONE, nutscythe_settings_new(false, false, &now.settings));
    TRY(NUTSCYTHE_DONE, nutscythe_settings_read((const uint8_t *)text, sizeof text - 1, &now.settings, &now.refusal));
    TRY(NUTSCYTHE_BAD_LINE, nutscythe_settings_read((const uint8_t *)"edns yes\nedns no", 16, &now.settings, &now.refusal));
    for (int i = 0; i < 9; i++)
        TRY(NUTSCYTHE_DONE, nutscythe_settings_deny(&now.settings, address, 4));
    TRY(NUTSCYTHE_DONE, nutscythe_settings_copy(&now.settings, &now.copy));
    TRY(NUTSCYTHE_DONE, nutscythe_settings_copy(&now.settings, &now.copy));
}

static void layers(void)
{
    nutscythe_origin origin = {.size = 1232, .octets = {127, 0, 0, 1}, .port = 53, .family = 4, .over = 1};
    uint8_t *octets = now.octets;
    size_t size = sizeof query - 1, room = sizeof now.octets;
    TRY(NUTSCYTHE_ASK, nutscythe_decide(&now.copy, &origin, 1, query, size, octets, room, &now.len, &now.rule));
    TRY(NUTSCYTHE_ASK, nutscythe_datagram(&now.copy, &origin, 1, query, size, octets, room, &now.len, &now.rule));
    TRY(NUTSCYTHE_REPLY, nutscythe_decide(&now.copy, &origin, 0, notify, sizeof notify - 1, octets, room, &now.len, &now.rule));
    TRY(NUTSCYTHE_REPLY, nutscythe_datagram(&now.copy, &origin, 0, response, 12, octets, room, &now.len, &now.rule));
    TRY(NUTSCYTHE_REPLY, nutscythe_rewrite(&now.rule, answer, sizeof answer - 1, octets, room, &now.len));
    TRY(NUTSCYTHE_REPLY, nutscythe_refuse(&now.rule, query, size, 2, octets, room, &now.len));
    /* 192.0.2.7 is denied without a cookie */
    memcpy(origin.octets, "\xc0\0\2\7", 4);
    TRY(NUTSCYTHE_REPLY, nutscythe_datagram(&now.copy, &origin, 1, query, size, octets, room, &now.len, &now.rule));
}

static void build(void)
{
    TRY(NUTSCYTHE_DONE, nutscythe_reply_begin(query, sizeof query - 1, 0, true, &now.built));
    for (uint32_t i = 0; i < 6; i++)
        TRY(NUTSCYTHE_DONE, nutscythe_reply_add(&now.built, 1 + i / 2, query + 12, 13, 16, 1, 60, data, i % 2 ? sizeof data : 9));
    TRY(NUTSCYTHE_DONE, nutscythe_reply_option(&now.built, 15, (const uint8_t *)"\0\0late", 6));
    TRY(NUTSCYTHE_DONE, nutscythe_reply_option(&now.built, 12, data, 200));
}

/* A reply that is built. One that had no memory when it was written is lost, says so, and is begun anew. */
static void replies(void)
{
    build();
    memcpy(&before, &now, sizeof now);
    uint32_t status = nutscythe_reply_write(&now.built, &now.rule, now.octets, sizeof now.octets, &now.len);
    if (status == NUTSCYTHE_NO_MEMORY) {
        lacked++;
        for (int i = 0; i < 2; i++) {
            assert(memcmp(&before, &now, sizeof now) == 0);
            status = nutscythe_reply_write(&now.built, &now.rule, now.octets, sizeof now.octets, &now.len);
            assert(status == NUTSCYTHE_NO_MEMORY);
        }
        uint64_t was = sum;
        build();
        sum = was;
        status = nutscythe_reply_write(&now.built, &now.rule, now.octets, sizeof now.octets, &now.len);
    }
    is(status, NUTSCYTHE_REPLY);
}

static void messages(void)
{
    TRY(NUTSCYTHE_DONE, nutscythe_message_read(query, sizeof query - 1, &now.reader));
    TRY(NUTSCYTHE_DONE, nutscythe_message_read(answer, sizeof answer - 1, &now.reader));
    for (int i = 0; i < 3; i++)
        TRY(i < 2 ? NUTSCYTHE_DONE : NUTSCYTHE_NOTHING,
            nutscythe_message_next(&now.reader, now.octets, sizeof now.octets, &now.len, &now.section));
}

/* A query and a response, cut within the second; replies by both calls; and all their frames. */
static void connections(void)
{
    uint8_t *octets = now.octets;
    size_t room = sizeof now.octets, size = sizeof answer - 1;
    TRY(NUTSCYTHE_DONE, nutscythe_connection_open(&now.settings, 1, &now.connection));
    TRY(NUTSCYTHE_DONE, nutscythe_connection_feed(&now.connection, stream, 20));
    TRY(NUTSCYTHE_DONE, nutscythe_connection_next(&now.connection, 2, octets, room, &now.len));
    TRY(NUTSCYTHE_NOTHING, nutscythe_connection_next(&now.connection, 2, octets, room, &now.len));
    TRY(NUTSCYTHE_DONE, nutscythe_connection_feed(&now.connection, stream + 20, 8));
    TRY(NUTSCYTHE_RESPONSE, nutscythe_connection_next(&now.connection, 2, octets, room, &now.len));
    TRY(NUTSCYTHE_DONE, nutscythe_connection_offer(&now.connection, 3, answer, size));
    TRY(NUTSCYTHE_DONE, nutscythe_connection_give(&now.connection, 3, &now.request, NUTSCYTHE_HEAR_BEGIN, 0, answer, size));
    TRY(NUTSCYTHE_DONE, nutscythe_connection_give(&now.connection, 3, &now.request, NUTSCYTHE_HEAR_END, 0, answer, size));
    TRY(NUTSCYTHE_DONE, nutscythe_configure(&now.settings, &now.connection));
    for (int i = 0; i < 4; i++) {
        TRY(NUTSCYTHE_DONE, nutscythe_connection_front(&now.connection, octets, room, &now.len));
        TRY(NUTSCYTHE_DONE, nutscythe_connection_written(&now.connection, 4, 1));
    }
    TRY(NUTSCYTHE_NOTHING, nutscythe_connection_front(&now.connection, octets, room, &now.len));
    TRY(NUTSCYTHE_CLOSE, nutscythe_connection_close(&now.connection));
    TRY(NUTSCYTHE_CLOSE, nutscythe_connection_front(&now.connection, octets, room, &now.len));
}

static void book(void)
{
    TRY(NUTSCYTHE_DONE, nutscythe_book_open(&now.settings, &now.book));
    TRY(NUTSCYTHE_DONE, nutscythe_book_call(&now.book, NUTSCYTHE_ADMIT));
    TRY(NUTSCYTHE_DONE, nutscythe_configure(&now.settings, &now.book));
    TRY(NUTSCYTHE_DONE, nutscythe_book_call(&now.book, NUTSCYTHE_RELEASE));
}

/* One run of all calls: the sum of what they wrote. Nothing is left. */
static uint64_t run(long number)
{
    memset(&now, 0, sizeof now);
    left = number;
    lacked = 0;
    sum = 14695981039346656037u;
    settings();
    layers();
    replies();
    messages();
    connections();
    book();
    nutscythe_handle *held[] = {&now.settings, &now.copy, &now.connection, &now.built, &now.reader, &now.book};
    for (size_t i = 0; i < sizeof held / sizeof *held; i++)
        assert(held[i]->at != NULL && nutscythe_free(held[i]) == NUTSCYTHE_DONE && held[i]->at == NULL);
    assert(live == 0 && lacked <= 1);
    return sum;
}

/* A refused request is the status of the call that made it, or that call asks once more and has all that it needs. */
int main(void)
{
    long n = 0, statuses = 0;
    uint64_t wanted = run(-1);
    assert(lacked == 0);
    for (;; n++) {
        assert(run(n) == wanted);
        if (left >= 0)
            break;
        statuses += lacked;
    }
    printf("%ld requests for memory, each refused once: %ld times NO_MEMORY, nothing written, nothing lost\n", n, statuses);
    return statuses == 0;
}
