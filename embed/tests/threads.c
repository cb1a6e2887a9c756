/* Eight threads, each with a copy of the settings, and with replies, messages and a connection of its own. usage: threads COUNT */
#include <nutscythe.h>

#undef NDEBUG
#include <assert.h>
#include <pthread.h>
#include <stdio.h>
#include <stdlib.h>
#include <string.h>

enum { THREADS = 8 };

static const uint8_t query[] = "\x12\x34\x01\x00\x00\x01\x00\x00\x00\x00\x00\x00\x07" "example\x03" "com\x00\x00\x01\x00\x01";
static nutscythe_settings copies[THREADS];
static long count;

/* A query over a connection, and its reply. */
static void stream(nutscythe_connection *connection, uint64_t at)
{
    uint8_t frame[sizeof query + 1] = {0, sizeof query - 1}, octets[512];
    size_t len = 0;
    memcpy(frame + 2, query, sizeof query - 1);
    assert(nutscythe_connection_feed(connection, frame, sizeof frame) == NUTSCYTHE_DONE);
    assert(nutscythe_connection_next(connection, at, octets, sizeof octets, &len) == NUTSCYTHE_DONE && len == sizeof query - 1);
    assert(nutscythe_connection_offer(connection, at, octets, len) == NUTSCYTHE_DONE);
    assert(nutscythe_connection_front(connection, octets, sizeof octets, &len) == NUTSCYTHE_DONE && len == sizeof frame);
    assert(nutscythe_connection_written(connection, at, 1) == NUTSCYTHE_DONE);
}

static void *work(void *word)
{
    nutscythe_settings *settings = word;
    nutscythe_reply built = NUTSCYTHE_NONE;
    nutscythe_reader reader = NUTSCYTHE_NONE;
    nutscythe_connection connection = NUTSCYTHE_NONE;
    uint32_t section = 9;
    assert(nutscythe_connection_open(settings, 0, &connection) == NUTSCYTHE_DONE);
    nutscythe_origin origin = {.secs = 1700000000, .size = 1232, .octets = {192, 0, 2, 7}, .port = 53, .family = 4, .over = 1};
    for (long i = 0; i < count; i++) {
        uint8_t reply[512];
        nutscythe_rule rule = {0};
        size_t len = 0;
        origin.octets[3] = 7 + i % 2;
        uint32_t status = nutscythe_decide(settings, &origin, 1, query, sizeof query - 1, reply, sizeof reply, &len, &rule);
        /* 192.0.2.7 is denied without a cookie over UDP: it is sent a truncated reply, and others are passed on */
        assert(status == (i % 2 ? NUTSCYTHE_ASK : NUTSCYTHE_REPLY));
        assert(i % 2 || (reply[2] & 2));
        if (status == NUTSCYTHE_ASK) {
            assert(nutscythe_reply_begin(query, sizeof query - 1, 0, true, &built) == NUTSCYTHE_DONE);
            assert(nutscythe_reply_add(&built, NUTSCYTHE_ANSWER, query + 12, 13, 1, 1, 60, origin.octets, 4) == NUTSCYTHE_DONE);
            assert(nutscythe_reply_write(&built, &rule, reply, sizeof reply, &len) == NUTSCYTHE_REPLY && len == 56);
            assert(nutscythe_message_read(reply, len, &reader) == NUTSCYTHE_DONE);
            assert(nutscythe_message_next(&reader, reply, sizeof reply, &len, &section) == NUTSCYTHE_DONE && len == 17);
            stream(&connection, (uint64_t)i);
        }
    }
    nutscythe_free(&connection);
    nutscythe_free(&reader);
    nutscythe_free(&built);
    nutscythe_free(settings);
    return NULL;
}

int main(int argc, char **argv)
{
    static const uint8_t secret[16] = "0123456789abcde", denied[16] = {192, 0, 2, 7};
    pthread_t threads[THREADS];
    nutscythe_settings settings = NUTSCYTHE_NONE;
    count = argc > 1 ? atol(argv[1]) : 10000;
    assert(nutscythe_settings_copy(&settings, &copies[0]) == NUTSCYTHE_NO_HANDLE);
    assert(nutscythe_settings_new(true, true, &settings) == NUTSCYTHE_DONE);
    assert(nutscythe_settings_cookies(&settings, secret, 16) == NUTSCYTHE_DONE);
    assert(nutscythe_settings_deny(&settings, denied, 5) == NUTSCYTHE_OUT_OF_RANGE);
    assert(nutscythe_settings_deny(&settings, denied, 4) == NUTSCYTHE_DONE);
    for (int i = 0; i < THREADS; i++) {
        assert(nutscythe_settings_copy(&settings, &copies[i]) == NUTSCYTHE_DONE);
        assert(pthread_create(&threads[i], NULL, work, &copies[i]) == 0);
    }
    nutscythe_free(&settings);
    for (int i = 0; i < THREADS; i++)
        pthread_join(threads[i], NULL);
    printf("%d threads, %ld messages each\n", THREADS, count);
    return 0;
}
