/* Wrong calls, and hostile messages in blocks of exact size: the statuses, and what stays as it was.
 * usage: wrong CALLS [FILE] (that many wrong calls or some more; FILE: messages, each after its length in two octets) */
#include <nutscythe.h>

#undef NDEBUG
#include <assert.h>
#include <stdio.h>
#include <stdlib.h>
#include <string.h>

static const uint8_t seed[] = "\x12\x34\x01\x00\x00\x01\x00\x00\x00\x00\x00\x01\x07" "example\x03" "com\x00\x00\x01\x00\x01"
                              "\x00\x00\x29\x04\xd0\x00\x00\x00\x00\x00\x0c\x00\x0a\x00\x08" "abcdefgh";
static const size_t seed_len = sizeof seed - 1;
static uint64_t state = 88172645463325252u;
static unsigned long seen[32];
/* How many calls were wrong. */
static long made;

static uint64_t number(void)
{
    state ^= state << 13;
    state ^= state >> 7;
    state ^= state << 17;
    return state;
}

static uint32_t count(uint32_t status)
{
    assert(status < 32);
    seen[status]++;
    return status;
}

static void is(uint32_t status, uint32_t wanted)
{
    made += status >= NUTSCYTHE_NO_MEMORY;
    if (count(status) != wanted) {
        fprintf(stderr, "status %u, wanted %u\n", status, wanted);
        abort();
    }
}

/* Each object null in turn: a status, and nothing is written. */
static void nulls(nutscythe_settings *s, nutscythe_connection *c)
{
    uint8_t reply[600];
    size_t len = 77;
    uint32_t request = 0, section = 9;
    uint64_t deadline = 7;
    nutscythe_rule rule = {.id = 3};
    nutscythe_line_refusal refusal = {.line = 9};
    nutscythe_servers servers = NUTSCYTHE_SERVERS;
    nutscythe_settings other = NUTSCYTHE_NONE;
    nutscythe_origin origin = {.octets = {127, 0, 0, 1}, .port = 53, .family = 4};
    memset(reply, 7, sizeof reply);
    is(nutscythe_free(NULL), NUTSCYTHE_NULL_POINTER);
    is(nutscythe_settings_new(true, true, NULL), NUTSCYTHE_NULL_POINTER);
    is(nutscythe_settings_read(seed, 3, NULL, &refusal), NUTSCYTHE_NULL_POINTER);
    is(nutscythe_settings_read(seed, 3, &other, NULL), NUTSCYTHE_NULL_POINTER);
    is(nutscythe_settings_servers(NULL, &servers), NUTSCYTHE_NULL_POINTER);
    is(nutscythe_settings_servers(s, NULL), NUTSCYTHE_NULL_POINTER);
    is(nutscythe_settings_cookies(NULL, seed, 16), NUTSCYTHE_NULL_POINTER);
    is(nutscythe_settings_deny(NULL, seed, 4), NUTSCYTHE_NULL_POINTER);
    is(nutscythe_settings_copy(NULL, &other), NUTSCYTHE_NULL_POINTER);
    is(nutscythe_settings_copy(s, NULL), NUTSCYTHE_NULL_POINTER);
    for (int k = 0; k < 4; k++) {
        nutscythe_settings *a = k == 0 ? NULL : s;
        nutscythe_origin *b = k == 1 ? NULL : &origin;
        size_t *n = k == 2 ? NULL : &len;
        nutscythe_rule *r = k == 3 ? NULL : &rule;
        is(nutscythe_decide(a, b, 1, seed, seed_len, reply, sizeof reply, n, r), NUTSCYTHE_NULL_POINTER);
        is(nutscythe_datagram(a, b, 1, seed, seed_len, reply, sizeof reply, n, r), NUTSCYTHE_NULL_POINTER);
    }
    is(nutscythe_rewrite(NULL, seed, seed_len, reply, sizeof reply, &len), NUTSCYTHE_NULL_POINTER);
    is(nutscythe_rewrite(&rule, seed, seed_len, reply, sizeof reply, NULL), NUTSCYTHE_NULL_POINTER);
    is(nutscythe_refuse(NULL, seed, seed_len, 2, reply, sizeof reply, &len), NUTSCYTHE_NULL_POINTER);
    is(nutscythe_refuse(&rule, seed, seed_len, 2, reply, sizeof reply, NULL), NUTSCYTHE_NULL_POINTER);
    is(nutscythe_connection_open(NULL, 1, &other), NUTSCYTHE_NULL_POINTER);
    is(nutscythe_connection_open(s, 1, NULL), NUTSCYTHE_NULL_POINTER);
    is(nutscythe_connection_feed(NULL, seed, 3), NUTSCYTHE_NULL_POINTER);
    is(nutscythe_connection_next(NULL, 1, reply, sizeof reply, &len), NUTSCYTHE_NULL_POINTER);
    is(nutscythe_connection_next(c, 1, reply, sizeof reply, NULL), NUTSCYTHE_NULL_POINTER);
    is(nutscythe_connection_offer(NULL, 1, seed, 3), NUTSCYTHE_NULL_POINTER);
    is(nutscythe_connection_front(NULL, reply, sizeof reply, &len), NUTSCYTHE_NULL_POINTER);
    is(nutscythe_connection_front(c, reply, sizeof reply, NULL), NUTSCYTHE_NULL_POINTER);
    is(nutscythe_connection_written(NULL, 1, 1), NUTSCYTHE_NULL_POINTER);
    is(nutscythe_connection_deadline(NULL, 1, &deadline), NUTSCYTHE_NULL_POINTER);
    is(nutscythe_connection_deadline(c, 1, NULL), NUTSCYTHE_NULL_POINTER);
    is(nutscythe_connection_tick(NULL, 1), NUTSCYTHE_NULL_POINTER);
    is(nutscythe_connection_close(NULL), NUTSCYTHE_NULL_POINTER);
    is(nutscythe_connection_give(NULL, 1, &request, 1, 0, seed, 3), NUTSCYTHE_NULL_POINTER);
    is(nutscythe_connection_give(c, 1, NULL, 1, 0, seed, 3), NUTSCYTHE_NULL_POINTER);
    is(nutscythe_reply_begin(seed, seed_len, 0, true, NULL), NUTSCYTHE_NULL_POINTER);
    is(nutscythe_reply_add(NULL, 1, seed + 12, 13, 1, 1, 60, seed, 4), NUTSCYTHE_NULL_POINTER);
    is(nutscythe_reply_option(NULL, 15, seed, 2), NUTSCYTHE_NULL_POINTER);
    is(nutscythe_reply_write(NULL, &rule, reply, sizeof reply, &len), NUTSCYTHE_NULL_POINTER);
    is(nutscythe_reply_write(&other, NULL, reply, sizeof reply, &len), NUTSCYTHE_NULL_POINTER);
    is(nutscythe_reply_write(&other, &rule, reply, sizeof reply, NULL), NUTSCYTHE_NULL_POINTER);
    is(nutscythe_message_read(seed, seed_len, NULL), NUTSCYTHE_NULL_POINTER);
    is(nutscythe_message_next(NULL, reply, sizeof reply, &len, &section), NUTSCYTHE_NULL_POINTER);
    is(nutscythe_message_next(&other, reply, sizeof reply, NULL, &section), NUTSCYTHE_NULL_POINTER);
    is(nutscythe_message_next(&other, reply, sizeof reply, &len, NULL), NUTSCYTHE_NULL_POINTER);
    is(nutscythe_book_open(NULL, &other), NUTSCYTHE_NULL_POINTER);
    is(nutscythe_book_open(s, NULL), NUTSCYTHE_NULL_POINTER);
    is(nutscythe_book_call(NULL, NUTSCYTHE_ADMIT), NUTSCYTHE_NULL_POINTER);
    is(nutscythe_configure(NULL, c), NUTSCYTHE_NULL_POINTER);
    is(nutscythe_configure(s, NULL), NUTSCYTHE_NULL_POINTER);
    assert(request == 0 && section == 9);
    assert(other.at == NULL && len == 77 && deadline == 7 && rule.id == 3 && refusal.line == 9 && reply[0] == 7);
}

/* Servers that are configured by numbers: each out of its range in turn, and then a queue of one reply and an idle timeout. */
static void configured(void)
{
    static const nutscythe_servers fit = {.dgram_write_timeout = 1, .idle_timeout = 200, .write_timeout = 3600000, .budget_window = 1,
                                          .max_connections = 1, .max_response_size = 512, .max_queued_responses = 1};
    nutscythe_settings settings = NUTSCYTHE_NONE;
    nutscythe_connection connection = NUTSCYTHE_NONE;
    is(nutscythe_settings_new(true, true, &settings), NUTSCYTHE_DONE);
    is(nutscythe_settings_servers(&settings, &fit), NUTSCYTHE_DONE);
    for (int i = 0; i < 15; i++) {
        nutscythe_servers unfit = fit;
        switch (i) {
        case 0: unfit.dgram_write_timeout = 0; break;
        case 1: unfit.dgram_write_timeout = 60001; break;
        case 2: unfit.idle_timeout = 199; break;
        case 3: unfit.idle_timeout = 2592000001; break;
        case 4: unfit.write_timeout = 0; break;
        case 5: unfit.write_timeout = 3600001; break;
        case 6: unfit.budget_window = 0; break;
        case 7: unfit.budget_window = 3600001; break;
        case 8: unfit.max_connections = 0; break;
        case 9: unfit.max_connections = 100001; break;
        case 10: unfit.response_budget = 1000001; break;
        case 11: unfit.max_response_size = 511; break;
        case 12: unfit.max_response_size = 4097; break;
        case 13: unfit.max_queued_responses = 0; break;
        case 14: unfit.max_queued_responses = 1025; break;
        }
        is(nutscythe_settings_servers(&settings, &unfit), NUTSCYTHE_OUT_OF_RANGE);
    }
    is(nutscythe_connection_open(&settings, 7, &connection), NUTSCYTHE_DONE);
    is(nutscythe_connection_offer(&connection, 7, seed, seed_len), NUTSCYTHE_DONE);
    is(nutscythe_connection_offer(&connection, 7, seed, seed_len), NUTSCYTHE_DROPPED);
    is(nutscythe_connection_tick(&connection, 206), NUTSCYTHE_DONE);
    is(nutscythe_connection_tick(&connection, 207), NUTSCYTHE_CLOSE);
    is(nutscythe_free(&connection), NUTSCYTHE_DONE);
    is(nutscythe_free(&settings), NUTSCYTHE_DONE);
}

/* A connection that is to be closed: what waits is written, and nothing else happens to it any more. */
static void closed(nutscythe_settings *s)
{
    uint8_t frame[128];
    size_t len = 77;
    uint32_t request = NUTSCYTHE_PLAIN;
    uint64_t deadline = 7;
    nutscythe_connection connection = NUTSCYTHE_NONE;
    is(nutscythe_connection_open(s, 1, &connection), NUTSCYTHE_DONE);
    is(nutscythe_connection_close(&connection), NUTSCYTHE_CLOSE);
    is(nutscythe_connection_front(&connection, frame, sizeof frame, &len), NUTSCYTHE_CLOSE);
    is(nutscythe_connection_open(s, 1, &connection), NUTSCYTHE_DONE);
    is(nutscythe_connection_deadline(&connection, 1, &deadline), NUTSCYTHE_DONE);
    assert(deadline == 1001);
    is(nutscythe_connection_give(&connection, 1, &request, NUTSCYTHE_HEAR_BEGIN, 0, seed, seed_len), NUTSCYTHE_DONE);
    is(nutscythe_connection_deadline(&connection, 1, &deadline), NUTSCYTHE_DONE);
    assert(deadline == UINT64_MAX);
    is(nutscythe_connection_feed(&connection, (const uint8_t *)"\0\3abc\0", 6), NUTSCYTHE_DONE);
    for (int i = 0; i < 2; i++) {
        is(nutscythe_connection_close(&connection), NUTSCYTHE_DONE);
        is(nutscythe_connection_feed(&connection, (const uint8_t *)"\0\3abc", 5), NUTSCYTHE_DONE);
        is(nutscythe_connection_next(&connection, 1, frame, sizeof frame, &len), NUTSCYTHE_NOTHING);
        is(nutscythe_connection_offer(&connection, 1, seed, seed_len), NUTSCYTHE_DROPPED);
        is(nutscythe_connection_give(&connection, 1, &request, NUTSCYTHE_HEAR_END, 0, seed, seed_len), NUTSCYTHE_NOTHING);
        is(nutscythe_connection_tick(&connection, 1000000), NUTSCYTHE_DONE);
        is(nutscythe_connection_deadline(&connection, 1000000, &deadline), NUTSCYTHE_DONE);
        is(nutscythe_configure(s, &connection), NUTSCYTHE_DONE);
        assert(request == NUTSCYTHE_IN_TRANSACTION && deadline == UINT64_MAX && len == 77);
    }
    is(nutscythe_connection_front(&connection, frame, sizeof frame, &len), NUTSCYTHE_DONE);
    assert(len == seed_len + 2 && memcmp(frame + 2, seed, seed_len) == 0);
    is(nutscythe_connection_written(&connection, 1, 1), NUTSCYTHE_DONE);
    is(nutscythe_connection_front(&connection, frame, sizeof frame, &len), NUTSCYTHE_CLOSE);
    is(nutscythe_connection_written(&connection, 1, 1), NUTSCYTHE_NOTHING);
    is(nutscythe_connection_close(&connection), NUTSCYTHE_CLOSE);
    is(nutscythe_free(&connection), NUTSCYTHE_DONE);
}

/* Lengths of 0: octets that are none, and buffers that hold none. */
static void empty(nutscythe_settings *s)
{
    uint8_t frame[2];
    size_t len = 77;
    uint32_t request = 0, section = 9;
    nutscythe_rule rule = {.id = 3};
    nutscythe_line_refusal refusal = {.line = 9};
    nutscythe_handle other = NUTSCYTHE_NONE;
    nutscythe_origin origin = {.octets = {127, 0, 0, 1}, .port = 53, .family = 4};
    is(nutscythe_decide(s, &origin, 1, seed, 0, NULL, 0, &len, &rule), NUTSCYTHE_NOTHING);
    is(nutscythe_datagram(s, &origin, 1, seed, 0, NULL, 0, &len, &rule), NUTSCYTHE_NOTHING);
    is(nutscythe_rewrite(&rule, seed, 0, NULL, 0, &len), NUTSCYTHE_UNREADABLE);
    is(nutscythe_refuse(&rule, seed, 0, 2, NULL, 0, &len), NUTSCYTHE_UNREADABLE);
    is(nutscythe_settings_cookies(s, seed, 0), NUTSCYTHE_OUT_OF_RANGE);
    is(nutscythe_settings_deny(s, seed, 0), NUTSCYTHE_OUT_OF_RANGE);
    is(nutscythe_reply_begin(seed, 0, 0, true, &other), NUTSCYTHE_UNREADABLE);
    is(nutscythe_message_read(seed, 0, &other), NUTSCYTHE_UNREADABLE);
    assert(len == 77 && rule.id == 3 && other.at == NULL);
    is(nutscythe_refuse(&rule, seed, seed_len, 2, NULL, 0, &len), NUTSCYTHE_NO_ROOM);
    assert(len >= 12 && len != 77);
    is(nutscythe_reply_begin(seed, seed_len, 0, true, &other), NUTSCYTHE_DONE);
    is(nutscythe_reply_add(&other, NUTSCYTHE_ANSWER, seed, 0, 1, 1, 60, seed, 4), NUTSCYTHE_UNREADABLE);
    is(nutscythe_reply_add(&other, NUTSCYTHE_ANSWER, seed + 12, 13, 1, 1, 60, seed, 0), NUTSCYTHE_DONE);
    is(nutscythe_reply_option(&other, 15, seed, 0), NUTSCYTHE_DONE);
    is(nutscythe_reply_write(&other, &rule, NULL, 0, &len), NUTSCYTHE_NO_ROOM);
    is(nutscythe_message_read(seed, seed_len, &other), NUTSCYTHE_DONE);
    is(nutscythe_message_next(&other, NULL, 0, &len, &section), NUTSCYTHE_NO_ROOM);
    assert(len == 17 && section == 9);
    is(nutscythe_connection_open(s, 1, &other), NUTSCYTHE_DONE);
    is(nutscythe_connection_feed(&other, seed, 0), NUTSCYTHE_DONE);
    is(nutscythe_connection_next(&other, 1, NULL, 0, &len), NUTSCYTHE_NOTHING);
    is(nutscythe_connection_give(&other, 1, &request, NUTSCYTHE_HEAR_NOTHING, 0, seed, 0), NUTSCYTHE_DONE);
    is(nutscythe_connection_front(&other, NULL, 0, &len), NUTSCYTHE_NOTHING);
    is(nutscythe_connection_offer(&other, 1, seed, 0), NUTSCYTHE_DONE);
    is(nutscythe_connection_front(&other, NULL, 0, &len), NUTSCYTHE_NO_ROOM);
    is(nutscythe_connection_front(&other, frame, len, &len), NUTSCYTHE_DONE);
    assert(len == 2 && frame[0] == 0 && frame[1] == 0);
    is(nutscythe_settings_read(NULL, 0, &other, &refusal), NUTSCYTHE_DONE);
    assert(refusal.line == 9);
    is(nutscythe_free(&other), NUTSCYTHE_DONE);
}

/* A handle of each kind, freed and freed again: it holds nothing, and each call says so. */
static void freed(nutscythe_settings *s)
{
    uint8_t octets[64];
    size_t len = 77;
    uint32_t section = 9;
    nutscythe_rule rule = {.id = 3};
    for (int kind = 0; kind < 5; kind++) {
        nutscythe_handle handle = NUTSCYTHE_NONE;
        switch (kind) {
        case 0: is(nutscythe_settings_copy(s, &handle), NUTSCYTHE_DONE); break;
        case 1: is(nutscythe_connection_open(s, 1, &handle), NUTSCYTHE_DONE); break;
        case 2: is(nutscythe_reply_begin(seed, seed_len, 0, true, &handle), NUTSCYTHE_DONE); break;
        case 3: is(nutscythe_message_read(seed, seed_len, &handle), NUTSCYTHE_DONE); break;
        case 4: is(nutscythe_book_open(s, &handle), NUTSCYTHE_DONE); break;
        }
        for (int i = 0; i < 2; i++) {
            assert((handle.at != NULL) == (i == 0));
            is(nutscythe_free(&handle), NUTSCYTHE_DONE);
        }
        is(nutscythe_settings_cookies(&handle, seed, 16), NUTSCYTHE_NO_HANDLE);
        is(nutscythe_connection_front(&handle, octets, sizeof octets, &len), NUTSCYTHE_NO_HANDLE);
        is(nutscythe_connection_close(&handle), NUTSCYTHE_NO_HANDLE);
        is(nutscythe_reply_write(&handle, &rule, octets, sizeof octets, &len), NUTSCYTHE_NO_HANDLE);
        is(nutscythe_message_next(&handle, octets, sizeof octets, &len, &section), NUTSCYTHE_NO_HANDLE);
        is(nutscythe_book_call(&handle, NUTSCYTHE_RELEASE), NUTSCYTHE_NO_HANDLE);
        is(nutscythe_configure(s, &handle), NUTSCYTHE_NO_HANDLE);
        assert(handle.at == NULL && len == 77 && section == 9);
    }
}

/* A reply that is built, out of order, too long, into a short buffer, and read again. */
static void built(const nutscythe_rule *rule)
{
    static uint8_t much[65600], item[600];
    size_t len = 0, item_len = 0;
    uint32_t section = 9;
    nutscythe_reply reply = NUTSCYTHE_NONE;
    nutscythe_reader reader = NUTSCYTHE_NONE;
    is(nutscythe_reply_begin(seed, seed_len, 3, true, &reply), NUTSCYTHE_DONE);
    is(nutscythe_reply_add(&reply, NUTSCYTHE_AUTHORITY, seed + 12, 13, 16, 1, 60, seed, number() % 9), NUTSCYTHE_DONE);
    is(nutscythe_reply_add(&reply, NUTSCYTHE_ANSWER, seed + 12, 13, 1, 1, 60, seed, 4), NUTSCYTHE_OUT_OF_RANGE);
    is(nutscythe_reply_add(&reply, NUTSCYTHE_AUTHORITY, seed + 12, 13, 16, 1, 60, much, 65536), NUTSCYTHE_TOO_LONG);
    is(nutscythe_reply_add(&reply, NUTSCYTHE_AUTHORITY, seed + 12, 13, 16, 1, 60, much, 65500), NUTSCYTHE_TOO_LONG);
    is(nutscythe_reply_option(&reply, 12, much, 65500), NUTSCYTHE_TOO_LONG);
    is(nutscythe_reply_write(&reply, rule, much, number() % 40, &len), NUTSCYTHE_NO_ROOM);
    is(nutscythe_reply_add(&reply, NUTSCYTHE_ADDITIONAL, seed + 12, 13, 1, 1, 60, seed, 4), NUTSCYTHE_OUT_OF_RANGE);
    is(nutscythe_reply_option(&reply, 12, NULL, 0), NUTSCYTHE_OUT_OF_RANGE);
    uint8_t *exact = malloc(len);
    is(nutscythe_reply_write(&reply, rule, exact, len, &len), NUTSCYTHE_REPLY);
    is(nutscythe_message_read(exact, len - number() % 5, &reader), NUTSCYTHE_DONE);
    is(nutscythe_message_next(&reader, item, 16, &item_len, &section), NUTSCYTHE_NO_ROOM);
    assert(section == 9 && item_len == 17);
    is(nutscythe_message_next(&reader, item, 17, &item_len, &section), NUTSCYTHE_DONE);
    assert(section == NUTSCYTHE_QUESTION && item_len == 17 && memcmp(item, seed + 12, 17) == 0);
    count(nutscythe_message_next(&reader, item, sizeof item, &item_len, &section));
    free(exact);
    nutscythe_free(&reader);
    nutscythe_free(&reply);
}

/* Handles of another kind, or that hold nothing, and numbers out of range. */
static void wrong(nutscythe_settings *s, nutscythe_connection *c)
{
    static const nutscythe_servers servers = NUTSCYTHE_SERVERS;
    uint8_t reply[600];
    size_t len = 77;
    uint32_t request = 1, section = 9, none_such = 3 + (uint32_t)number() % 99;
    uint64_t deadline = 7;
    nutscythe_rule rule = {.id = 3};
    nutscythe_line_refusal refusal = {.line = 9};
    nutscythe_settings none = NUTSCYTHE_NONE;
    nutscythe_settings *not_settings = number() % 2 ? &none : c;
    nutscythe_connection *not_connection = number() % 2 ? &none : s;
    nutscythe_origin origin = {.size = 1232, .octets = {127, 0, 0, 1}, .port = 53, .family = 4, .over = 1};
    memset(reply, 7, sizeof reply);
    is(nutscythe_decide(not_settings, &origin, 1, seed, 12, reply, sizeof reply, &len, &rule), NUTSCYTHE_NO_HANDLE);
    is(nutscythe_datagram(not_settings, &origin, 1, seed, 12, reply, sizeof reply, &len, &rule), NUTSCYTHE_NO_HANDLE);
    is(nutscythe_settings_servers(not_settings, &servers), NUTSCYTHE_NO_HANDLE);
    is(nutscythe_settings_cookies(not_settings, seed, 16), NUTSCYTHE_NO_HANDLE);
    is(nutscythe_settings_deny(not_settings, seed, 4), NUTSCYTHE_NO_HANDLE);
    is(nutscythe_settings_copy(not_settings, &none), NUTSCYTHE_NO_HANDLE);
    is(nutscythe_connection_open(not_settings, 1, &none), NUTSCYTHE_NO_HANDLE);
    is(nutscythe_connection_feed(not_connection, seed, 4), NUTSCYTHE_NO_HANDLE);
    is(nutscythe_connection_next(not_connection, 1, reply, sizeof reply, &len), NUTSCYTHE_NO_HANDLE);
    is(nutscythe_connection_offer(not_connection, 1, seed, 4), NUTSCYTHE_NO_HANDLE);
    is(nutscythe_connection_front(not_connection, reply, sizeof reply, &len), NUTSCYTHE_NO_HANDLE);
    is(nutscythe_connection_written(not_connection, 1, 1), NUTSCYTHE_NO_HANDLE);
    is(nutscythe_connection_deadline(not_connection, 1, &deadline), NUTSCYTHE_NO_HANDLE);
    is(nutscythe_connection_tick(not_connection, 1), NUTSCYTHE_NO_HANDLE);
    is(nutscythe_connection_close(not_connection), NUTSCYTHE_NO_HANDLE);
    is(nutscythe_decide(s, &origin, 3 + (uint32_t)number() % 9, seed, 12, reply, sizeof reply, &len, &rule), NUTSCYTHE_OUT_OF_RANGE);
    origin.family = (uint8_t)(number() % 2 ? 5 : 7 + number() % 200);
    is(nutscythe_decide(s, &origin, 0, seed, 12, reply, sizeof reply, &len, &rule), NUTSCYTHE_OUT_OF_RANGE);
    is(nutscythe_datagram(s, &origin, 0, seed, 12, reply, sizeof reply, &len, &rule), NUTSCYTHE_OUT_OF_RANGE);
    origin.family = 4;
    origin.size = 65536 + number() % 9;
    is(nutscythe_decide(s, &origin, 0, seed, 12, reply, sizeof reply, &len, &rule), NUTSCYTHE_OUT_OF_RANGE);
    origin.over = (uint8_t)(4 + number() % 200);
    is(nutscythe_decide(s, &origin, 0, seed, 12, reply, sizeof reply, &len, &rule), NUTSCYTHE_OUT_OF_RANGE);
    is(nutscythe_settings_cookies(s, seed, number() % 16), NUTSCYTHE_OUT_OF_RANGE);
    is(nutscythe_settings_deny(s, seed, 5 + number() % 11), NUTSCYTHE_OUT_OF_RANGE);
    is(nutscythe_refuse(&rule, seed, seed_len, 3, reply, sizeof reply, &len), NUTSCYTHE_OUT_OF_RANGE);
    is(nutscythe_rewrite(&rule, seed, number() % 12, reply, sizeof reply, &len), NUTSCYTHE_UNREADABLE);
    is(nutscythe_refuse(&rule, seed, number() % 12, 2, reply, sizeof reply, &len), NUTSCYTHE_UNREADABLE);
    is(nutscythe_rewrite(&rule, NULL, 99, reply, sizeof reply, &len), NUTSCYTHE_UNREADABLE);
    is(nutscythe_connection_give(not_connection, 1, &request, 2, 0, seed, 4), NUTSCYTHE_NO_HANDLE);
    is(nutscythe_reply_add(not_settings, 1, seed + 12, 13, 1, 1, 60, seed, 4), NUTSCYTHE_NO_HANDLE);
    is(nutscythe_reply_option(not_connection, 15, seed, 2), NUTSCYTHE_NO_HANDLE);
    is(nutscythe_reply_write(not_settings, &rule, reply, sizeof reply, &len), NUTSCYTHE_NO_HANDLE);
    is(nutscythe_message_next(not_connection, reply, sizeof reply, &len, &section), NUTSCYTHE_NO_HANDLE);
    is(nutscythe_book_open(not_settings, &none), NUTSCYTHE_NO_HANDLE);
    is(nutscythe_book_call(not_connection, NUTSCYTHE_ADMIT), NUTSCYTHE_NO_HANDLE);
    is(nutscythe_configure(not_settings, c), NUTSCYTHE_NO_HANDLE);
    is(nutscythe_configure(s, not_connection), NUTSCYTHE_NO_HANDLE);
    is(nutscythe_connection_give(c, 1, &none_such, 0, 0, seed, 4), NUTSCYTHE_OUT_OF_RANGE);
    is(nutscythe_connection_give(c, 1, &request, 5 + (uint32_t)number() % 99, 0, seed, 4), NUTSCYTHE_OUT_OF_RANGE);
    is(nutscythe_reply_begin(seed, seed_len, 16 + (uint32_t)number() % 99, true, &none), NUTSCYTHE_OUT_OF_RANGE);
    is(nutscythe_reply_begin(seed, number() % 12, 0, true, &none), NUTSCYTHE_UNREADABLE);
    is(nutscythe_reply_add(&none, number() % 2 ? 0 : 4, seed + 12, 13, 1, 1, 60, seed, 4), NUTSCYTHE_OUT_OF_RANGE);
    is(nutscythe_reply_add(&none, 1, seed + 12, number() % 2 ? 12 : 14, 1, 1, 60, seed, 4), NUTSCYTHE_UNREADABLE);
    is(nutscythe_message_read(seed, number() % 12, &none), NUTSCYTHE_UNREADABLE);
    is(nutscythe_book_call(&none, 3 + (uint32_t)number() % 99), NUTSCYTHE_OUT_OF_RANGE);
    assert(request == 1 && section == 9 && none_such > 2);
    assert(len == 77 && deadline == 7 && rule.id == 3 && refusal.line == 9 && reply[0] == 7 && none.at == NULL);
    built(&rule);
    is(nutscythe_settings_read((const uint8_t *)"strict yes\n\nsort yes\n", 21, &none, &refusal), NUTSCYTHE_BAD_LINE);
    assert(none.at == NULL && refusal.line == 3 && refusal.reason == 1);
    is(nutscythe_free(&none), NUTSCYTHE_DONE);
    is(nutscythe_free(&none), NUTSCYTHE_DONE);
}

/* A stream cut anywhere gives its queries in order, each once; its replies wait up to the bound of the queue. */
static void stream(nutscythe_connection *c, uint64_t at)
{
    uint8_t frame[128], query[128];
    size_t frame_len = seed_len + 2, fed = 0, len = 0, taken = 0;
    frame[0] = (uint8_t)(seed_len / 256);
    frame[1] = (uint8_t)(seed_len % 256);
    memcpy(frame + 2, seed, seed_len);
    while (fed < frame_len) {
        size_t piece = 1 + number() % (frame_len - fed);
        is(nutscythe_connection_feed(c, frame + fed, piece), NUTSCYTHE_DONE);
        fed += piece;
        is(nutscythe_connection_next(c, at, query, 10, &len), fed < frame_len ? NUTSCYTHE_NOTHING : NUTSCYTHE_NO_ROOM);
    }
    assert(len == seed_len);
    while (count(nutscythe_connection_next(c, at, query, sizeof query, &len)) == NUTSCYTHE_DONE)
        taken++;
    assert(taken == 1 && len == seed_len && memcmp(query, seed, len) == 0);
    for (int i = 0; i < 3; i++)
        is(nutscythe_connection_offer(c, at, seed, seed_len), i < 2 ? NUTSCYTHE_DONE : NUTSCYTHE_DROPPED);
    uint32_t request = NUTSCYTHE_PLAIN;
    is(nutscythe_connection_give(c, at, &request, NUTSCYTHE_HEAR_BEGIN, 0, seed, seed_len), NUTSCYTHE_HELD);
    assert(request == NUTSCYTHE_IN_TRANSACTION);
    is(nutscythe_connection_tick(c, at + 1000), NUTSCYTHE_DONE);
    is(nutscythe_connection_give(c, at, &request, NUTSCYTHE_HEAR_END, 0, seed, seed_len), NUTSCYTHE_DROPPED);
    is(nutscythe_connection_give(c, at, &request, NUTSCYTHE_HEAR_FAILURE, 0, NULL, 9), NUTSCYTHE_DONE);
    is(nutscythe_connection_give(c, at, &request, NUTSCYTHE_HEAR_BEGIN, 0, seed, seed_len), NUTSCYTHE_NOTHING);
    assert(request == NUTSCYTHE_FAILED);
    for (int i = 0; i < 3; i++) {
        is(nutscythe_connection_front(c, query, sizeof query, &len), i < 2 ? NUTSCYTHE_DONE : NUTSCYTHE_NOTHING);
        assert(i == 2 || (len == frame_len && memcmp(query, frame, len) == 0));
        is(nutscythe_connection_written(c, at, 1), i < 2 ? NUTSCYTHE_DONE : NUTSCYTHE_NOTHING);
    }
    is(nutscythe_connection_tick(c, at + 999), NUTSCYTHE_DONE);
    is(nutscythe_connection_tick(c, at + 1000), NUTSCYTHE_CLOSE);
}

static nutscythe_handle held = NUTSCYTHE_NONE;

/* A message of exact size through all that takes one, into a buffer of exact size. */
static void hostile(nutscythe_settings *s, const uint8_t *message, size_t size)
{
    size_t space = number() % 1300, len = 0;
    uint8_t *room = malloc(space + (space == 0));
    nutscythe_rule rule = {0};
    nutscythe_origin origin = {.at = 1, .secs = 1700000000, .size = 1232, .octets = {127, 0, 0, 1}, .port = 53, .family = 4};
    origin.over = (uint8_t)(number() % 4);
    uint32_t status = count(nutscythe_decide(s, &origin, (uint32_t)(number() % 3), message, size, room, space, &len, &rule));
    assert(status != NUTSCYTHE_REPLY || (len <= space && (room[2] & 0x80)));
    status = count(nutscythe_datagram(s, &origin, (uint32_t)(number() % 3), message, size, room, space, &len, &rule));
    assert(status != NUTSCYTHE_REPLY || (len <= space && len <= 1232 && (room[2] & 0x80)));
    assert((status == NUTSCYTHE_NOTHING) == (size < 12));
    status = count(nutscythe_rewrite(&rule, message, size, room, space, &len));
    assert(status != NUTSCYTHE_REPLY || len <= space);
    count(nutscythe_refuse(&rule, message, size, 2, room, space, &len));
    uint32_t section = 0;
    if (count(nutscythe_reply_begin(message, size, (uint32_t)(number() % 16), number() % 2, &held)) == NUTSCYTHE_DONE) {
        size_t at = size > 12 ? 12 + number() % (size - 12) : size;
        count(nutscythe_reply_add(&held, 1 + number() % 3, message + at, number() % (size - at + 1), (uint16_t)number(), 1, 60,
                                  message, size));
        count(nutscythe_reply_option(&held, (uint16_t)number(), message, size));
        status = count(nutscythe_reply_write(&held, &rule, room, space, &len));
        assert(status != NUTSCYTHE_REPLY || (len <= space && (room[2] & 0x80)));
    }
    for (status = count(nutscythe_message_read(message, size, &held)); status == NUTSCYTHE_DONE;) {
        status = count(nutscythe_message_next(&held, room, space, &len, &section));
        assert(status != NUTSCYTHE_DONE || (len <= space && section <= 3));
    }
    free(room);
}

int main(int argc, char **argv)
{
    static const char text[] = "secret 30313233343536373839616263646566\nstream 1000 5000 2 1 yes\n# a comment\n";
    long calls = argc > 1 ? atol(argv[1]) : 1000, messages = 0;
    nutscythe_settings settings = NUTSCYTHE_NONE;
    nutscythe_connection connection = NUTSCYTHE_NONE;
    nutscythe_line_refusal refusal;
    is(nutscythe_settings_read((const uint8_t *)text, sizeof text - 1, &settings, &refusal), NUTSCYTHE_DONE);
    is(nutscythe_connection_open(&settings, 1, &connection), NUTSCYTHE_DONE);
    do {
        nulls(&settings, &connection);
        empty(&settings);
        freed(&settings);
        configured();
        closed(&settings);
        wrong(&settings, &connection);
    } while (made < calls);
    calls = made;
    for (uint64_t i = 0; i < 100; i++)
        stream(&connection, 1000 * i);
    is(nutscythe_connection_feed(&connection, (const uint8_t *)"\0\3abc", 5), NUTSCYTHE_DONE);
    size_t len;
    is(nutscythe_connection_next(&connection, 1, NULL, 0, &len), NUTSCYTHE_CLOSE);
    FILE *file = argc > 2 ? fopen(argv[2], "rb") : NULL;
    uint8_t head[2];
    while (file != NULL && fread(head, 1, 2, file) == 2) {
        size_t size = (size_t)head[0] * 256 + head[1];
        uint8_t *exact = malloc(size + (size == 0));
        if (fread(exact, 1, size, file) == size) {
            hostile(&settings, exact, size);
            messages++;
        }
        free(exact);
    }
    if (file != NULL)
        fclose(file);
    nutscythe_free(&held);
    nutscythe_free(&connection);
    nutscythe_free(&settings);
    printf("%ld wrong calls, %ld messages; statuses", calls, messages);
    for (int i = 0; i < 32; i++)
        if (seen[i])
            printf(" %d:%lu", i, seen[i]);
    puts("");
    return 0;
}
