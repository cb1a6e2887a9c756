/* Decides about one query and rewrites one reply many times over, for bench/embed. The reply is read from octets, or built.
 * usage: embed read|built|decide|handle COUNT */
#include <nutscythe.h>

#include <stdio.h>
#include <stdlib.h>
#include <string.h>

static const uint8_t query[] = "\x12\x34\x01\x00\x00\x01\x00\x00\x00\x00\x00\x01\x07" "example\x03" "com\x00\x00\x01\x00\x01"
                               "\x00\x00\x29\x04\xd0\x00\x00\x00\x00\x00\x00";
static const uint8_t answer[] = "\x12\x34\x85\x00\x00\x01\x00\x01\x00\x00\x00\x00\x07" "example\x03" "com\x00\x00\x01\x00\x01"
                                "\xc0\x0c\x00\x01\x00\x01\x00\x00\x00\x3c\x00\x04\xc0\x00\x02\x01";

int main(int argc, char **argv)
{
    static const uint8_t address[] = {192, 0, 2, 1};
    const char *what = argc > 1 ? argv[1] : "read";
    uint64_t count = argc > 2 ? strtoull(argv[2], 0, 10) : 1000, sum = 0;
    uint32_t verdict = strcmp(what, "handle") == 0 ? 9 : 1;
    bool is_read = strcmp(what, "read") == 0, is_built = strcmp(what, "built") == 0;
    uint8_t reply[512];
    nutscythe_settings settings = NUTSCYTHE_NONE;
    nutscythe_reply built = NUTSCYTHE_NONE;
    nutscythe_rule rule = {0};
    nutscythe_origin origin = {.size = 1232, .octets = {127, 0, 0, 1}, .family = 4, .over = 1};
    if (nutscythe_settings_new(true, true, &settings) != NUTSCYTHE_DONE)
        return 1;
    for (origin.at = 0; origin.at < count; origin.at++) {
        size_t len = 0;
        origin.octets[3] = (uint8_t)origin.at;
        origin.port = (uint16_t)origin.at;
        origin.secs = 1700000000 + origin.at % 100;
        uint32_t status = nutscythe_decide(&settings, &origin, verdict, query, sizeof query - 1, reply, sizeof reply, &len, &rule);
        if (status != (verdict == 1 ? NUTSCYTHE_ASK : NUTSCYTHE_OUT_OF_RANGE))
            return 2;
        if (is_built && (nutscythe_reply_begin(query, sizeof query - 1, 0, true, &built) != NUTSCYTHE_DONE ||
                         nutscythe_reply_add(&built, NUTSCYTHE_ANSWER, query + 12, 13, 1, 1, 60, address, 4) != NUTSCYTHE_DONE ||
                         nutscythe_reply_write(&built, &rule, reply, sizeof reply, &len) != NUTSCYTHE_REPLY))
            return 4;
        if (is_read && nutscythe_rewrite(&rule, answer, sizeof answer - 1, reply, sizeof reply, &len) != NUTSCYTHE_REPLY)
            return 3;
        sum += len;
    }
    printf("%llu\n", (unsigned long long)sum);
    nutscythe_free(&built);
    nutscythe_free(&settings);
    return 0;
}
