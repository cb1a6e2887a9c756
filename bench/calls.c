/* The C peer of the rows `work` of crates/rows_layers: the same work, on the same octets, with the same checks and the same line of
 * output. It is written from the SipHash paper (Aumasson and Bernstein, 2012), RFC 1035, RFC 6891, RFC 7873 and
 * RFC 9018, as plain C: a message is read in one pass, and built in one growing buffer.
 *
 * Usage: calls sip20|sip64|check|read|build COUNT */
#include <inttypes.h>
#include <stdbool.h>
#include <stdint.h>
#include <stdio.h>
#include <stdlib.h>
#include <string.h>

/* The response that crates/rows_layers/src/works/response.rt has, 512 octets. */
static const char RESPONSE[] =
    "\0224\201\200\000\001\000\004\000\002\000\005"
    "\007example\003com\000\000\001\000\001"
    "\007example\003com\000\000\001\000\001\000\000\001,\000\004\300\000\002\001"
    "\007example\003com\000\000\001\000\001\000\000\001,\000\004\300\000\002\002"
    "\007example\003com\000\000\034\000\001\000\000\001,\000\020 \001\015\270\000\000\000\000\000\000\000\000\000\000"
    "\000\001"
    "\007example\003com\000\000\017\000\001\000\000\016\020\000\024\000\012\004mail\007example\003com\000"
    "\007example\003com\000\000\002\000\001\000\001Q\200\000\021\003ns1\007example\003com\000"
    "\007example\003com\000\000\002\000\001\000\001Q\200\000\021\003ns2\007example\003com\000"
    "\003ns1\007example\003com\000\000\001\000\001\000\001Q\200\000\004\300\000\0025"
    "\003ns1\007example\003com\000\000\034\000\001\000\001Q\200\000\020 \001\015\270\000\000\000\000\000\000\000\000"
    "\000\000\000S"
    "\003ns2\007example\003com\000\000\001\000\001\000\001Q\200\000\004\3063d5"
    "\004mail\007example\003com\000\000\001\000\001\000\000\016\020\000\004\300\000\002\031"
    "\000\000)\004\320\000\000\200\000\000w\000\012\000\030$d\304\253\317\020\311W\001\000\000\000\134\367\237\021"
    "\037\2010\303\356\342\224\200\000\003\000\010ns1.site\000\017\000\016\000\003Stale Answer\000\013\000\002\000d"
    "\000\014\0003\000\000\000\000\000\000\000\000\000\000\000\000\000\000\000\000\000\000\000\000\000\000\000\000"
    "\000\000\000\000\000\000\000\000\000\000\000\000\000\000\000\000\000\000\000\000\000\000\000\000\000\000\000";

/* ---- SipHash-2-4 ---- */

static const uint8_t SECRET[16] = {0xe5, 0xe9, 0x73, 0xe5, 0xa6, 0xb2, 0xa4, 0x3f,
                                   0x48, 0xe7, 0xdc, 0x84, 0x9e, 0x37, 0xbf, 0xcf};

static uint64_t rotated(uint64_t x, int n) { return x << n | x >> (64 - n); }

static uint64_t word_at(const uint8_t *p)
{
    return (uint64_t)p[0] | (uint64_t)p[1] << 8 | (uint64_t)p[2] << 16 | (uint64_t)p[3] << 24 |
           (uint64_t)p[4] << 32 | (uint64_t)p[5] << 40 | (uint64_t)p[6] << 48 | (uint64_t)p[7] << 56;
}

static void put_word(uint8_t *p, uint64_t x)
{
    p[0] = (uint8_t)x, p[1] = (uint8_t)(x >> 8), p[2] = (uint8_t)(x >> 16), p[3] = (uint8_t)(x >> 24);
    p[4] = (uint8_t)(x >> 32), p[5] = (uint8_t)(x >> 40), p[6] = (uint8_t)(x >> 48), p[7] = (uint8_t)(x >> 56);
}

#define ROUND                                                                                                          \
    do {                                                                                                               \
        v0 += v1; v1 = rotated(v1, 13); v1 ^= v0; v0 = rotated(v0, 32);                                                \
        v2 += v3; v3 = rotated(v3, 16); v3 ^= v2;                                                                      \
        v0 += v3; v3 = rotated(v3, 21); v3 ^= v0;                                                                      \
        v2 += v1; v1 = rotated(v1, 17); v1 ^= v2; v2 = rotated(v2, 32);                                                \
    } while (0)

static uint64_t siphash24(const uint8_t key[16], const uint8_t *octets, size_t len)
{
    uint64_t k0 = word_at(key), k1 = word_at(key + 8);
    uint64_t v0 = k0 ^ 0x736f6d6570736575, v1 = k1 ^ 0x646f72616e646f6d;
    uint64_t v2 = k0 ^ 0x6c7967656e657261, v3 = k1 ^ 0x7465646279746573;
    const uint8_t *end = octets + len / 8 * 8;
    for (; octets != end; octets += 8) {
        uint64_t m = word_at(octets);
        v3 ^= m;
        ROUND;
        ROUND;
        v0 ^= m;
    }
    uint64_t last = (uint64_t)(len & 255) << 56;
    for (size_t i = 0; i < len % 8; i++)
        last |= (uint64_t)end[i] << 8 * i;
    v3 ^= last;
    ROUND;
    ROUND;
    v0 ^= last;
    v2 ^= 0xff;
    ROUND;
    ROUND;
    ROUND;
    ROUND;
    return v0 ^ v1 ^ v2 ^ v3;
}

/* The last of that many hashes, before each of which the hash before it is written over the first eight octets. */
static uint64_t hash_chain(uint8_t *octets, size_t len, uint64_t count)
{
    uint64_t hash = 0;
    for (uint64_t i = 0; i < count; i++) {
        put_word(octets, hash);
        hash = siphash24(SECRET, octets, len);
    }
    return hash;
}

/* ---- server cookies ---- */

struct address {
    size_t len;
    uint8_t octets[16];
};

struct cookie {
    uint8_t client[8];
    size_t server_len;
    uint8_t server[32];
};

static uint32_t four_at(const uint8_t *p)
{
    return (uint32_t)p[0] << 24 | (uint32_t)p[1] << 16 | (uint32_t)p[2] << 8 | p[3];
}

/* At most an hour old and at most five minutes ahead, modulo 2^32. */
static bool timestamp_ok(uint32_t timestamp, uint32_t now) { return timestamp + 3600 - now <= 3900; }

/* The hash is over the client cookie, the first eight octets of the server cookie, and the address. */
static bool check_server_hash(const struct cookie *c, const struct address *a, const uint8_t secret[16], uint32_t now)
{
    if (c->server_len != 16 || !timestamp_ok(four_at(c->server + 4), now))
        return false;
    uint8_t input[32];
    memcpy(input, c->client, 8);
    memcpy(input + 8, c->server, 8);
    memcpy(input + 16, a->octets, a->len);
    return siphash24(secret, input, 16 + a->len) == word_at(c->server + 8);
}

/* The cookies of RFC 9018, appendices A.1 and A.3. */
static const struct {
    struct cookie cookie;
    struct address address;
    uint32_t now;
} COMING[2] = {
    {{{0x24, 0x64, 0xc4, 0xab, 0xcf, 0x10, 0xc9, 0x57},
      16,
      {0x01, 0x00, 0x00, 0x00, 0x5c, 0xf7, 0x9f, 0x11, 0x1f, 0x81, 0x30, 0xc3, 0xee, 0xe2, 0x94, 0x80}},
     {4, {198, 51, 100, 100}},
     1559731985},
    {{{0xfc, 0x93, 0xfc, 0x62, 0x80, 0x7d, 0xdb, 0x86},
      16,
      {0x01, 0xab, 0xcd, 0xef, 0x5c, 0xf7, 0x8f, 0x71, 0xa3, 0x14, 0x22, 0x7b, 0x66, 0x79, 0xeb, 0xf5}},
     {4, {203, 0, 113, 203}},
     1559727985},
};

static uint64_t checks(uint64_t count)
{
    uint64_t agreed = 0;
    for (uint64_t i = 0; i < count; i++)
        if (check_server_hash(&COMING[i % 2].cookie, &COMING[i % 2].address, SECRET, COMING[i % 2].now))
            agreed++;
    return agreed;
}

/* ---- reading ---- */

enum { GOOD, SHORT_INPUT, BAD_FORM, SHORT_BUFFER, NO_MEMORY };

static uint16_t two_at(const uint8_t *p) { return (uint16_t)(p[0] << 8 | p[1]); }

/* The place after the name at *at: pointers are followed, each to an earlier place and at most 255 of them, and the
 * labels have at most 255 octets with the root's. */
static int skip_name(const uint8_t *message, size_t size, bool pointers, size_t *at)
{
    size_t here = *at, length = 1, end = 0;
    unsigned hops = 0;
    for (;;) {
        if (here >= size)
            return SHORT_INPUT;
        uint8_t head = message[here];
        if (head == 0) {
            *at = hops ? end : here + 1;
            return GOOD;
        }
        if (head < 64) {
            if (size - here - 1 < head)
                return SHORT_INPUT;
            length += head + 1u;
            if (length > 255)
                return BAD_FORM;
            here += head + 1u;
        } else if (head < 192 || !pointers) {
            return BAD_FORM;
        } else {
            if (size - here < 2)
                return SHORT_INPUT;
            size_t target = (size_t)(head - 192) << 8 | message[here + 1];
            if (target >= here || hops == 255)
                return BAD_FORM;
            if (hops++ == 0)
                end = here + 2;
            here = target;
        }
    }
}

/* A question and a record as they stand in a message: views. */
struct question_view {
    const uint8_t *message;
    size_t name;
    uint16_t type, class;
};

struct record_view {
    const uint8_t *message;
    size_t owner;
    uint16_t type, class;
    uint32_t ttl;
    const uint8_t *data;
    uint16_t size;
};

static int read_question(const uint8_t *message, size_t size, size_t *at, struct question_view *q)
{
    q->message = message;
    q->name = *at;
    int error = skip_name(message, size, true, at);
    if (error)
        return error;
    if (size - *at < 4)
        return SHORT_INPUT;
    q->type = two_at(message + *at);
    q->class = two_at(message + *at + 2);
    *at += 4;
    return GOOD;
}

static int read_record(const uint8_t *message, size_t size, size_t *at, struct record_view *r)
{
    r->message = message;
    r->owner = *at;
    int error = skip_name(message, size, true, at);
    if (error)
        return error;
    if (size - *at < 10)
        return SHORT_INPUT;
    const uint8_t *p = message + *at;
    r->type = two_at(p);
    r->class = two_at(p + 2);
    r->ttl = four_at(p + 4);
    r->size = two_at(p + 8);
    r->data = p + 10;
    *at += 10;
    if (size - *at < r->size)
        return SHORT_INPUT;
    *at += r->size;
    return GOOD;
}

/* An option by its kind. */
struct option_view {
    uint16_t code;
    union {
        struct {
            const uint8_t *octets;
            size_t len;
        } octets; /* also a name, key tags */
        struct cookie cookie;
        struct {
            bool given;
            uint32_t number;
        } number; /* expiry, keepalive */
        struct {
            uint16_t code;
            const uint8_t *text;
            size_t len;
        } error;
        struct {
            uint16_t family;
            uint8_t source, scope;
            uint8_t address[16];
        } subnet;
    } data;
};

static int read_subnet(const uint8_t *p, size_t len, struct option_view *o)
{
    if (len < 4)
        return SHORT_INPUT;
    o->data.subnet.family = two_at(p);
    o->data.subnet.source = p[2];
    o->data.subnet.scope = p[3];
    size_t most = o->data.subnet.family == 1 ? 4 : o->data.subnet.family == 2 ? 16 : 0;
    size_t octets = (o->data.subnet.source + 7u) / 8;
    if (most == 0 || octets > most || len - 4 != octets)
        return BAD_FORM;
    memset(o->data.subnet.address, 0, 16);
    memcpy(o->data.subnet.address, p + 4, octets);
    if (o->data.subnet.source % 8 && (uint8_t)(p[3 + octets] << o->data.subnet.source % 8))
        return BAD_FORM;
    return GOOD;
}

static int read_option(uint16_t code, const uint8_t *p, size_t len, struct option_view *o)
{
    size_t end = 0;
    int error;
    o->code = code;
    switch (code) {
    case 8: /* client subnet, RFC 7871 */
        return read_subnet(p, len, o);
    case 9: /* expiry, RFC 7314 */
        if (len != 0 && len != 4)
            return len < 4 ? SHORT_INPUT : BAD_FORM;
        o->data.number.given = len != 0;
        o->data.number.number = len ? four_at(p) : 0;
        return GOOD;
    case 10: /* cookie, RFC 7873 */
        if (len < 8)
            return SHORT_INPUT;
        if (len != 8 && (len < 16 || len > 40))
            return BAD_FORM;
        memcpy(o->data.cookie.client, p, 8);
        memset(o->data.cookie.server, 0, 32);
        memcpy(o->data.cookie.server, p + 8, len - 8);
        o->data.cookie.server_len = len - 8;
        return GOOD;
    case 11: /* keepalive, RFC 7828 */
        if (len != 0 && len != 2)
            return len < 2 ? SHORT_INPUT : BAD_FORM;
        o->data.number.given = len != 0;
        o->data.number.number = len ? two_at(p) : 0;
        return GOOD;
    case 13: /* chain, RFC 7901 */
        error = skip_name(p, len, false, &end);
        if (error)
            return error;
        if (end != len)
            return BAD_FORM;
        break;
    case 14: /* key tags, RFC 8145 */
        if (len % 2)
            return BAD_FORM;
        break;
    case 15: /* extended error, RFC 8914 */
        if (len < 2)
            return SHORT_INPUT;
        o->data.error.code = two_at(p);
        o->data.error.text = p + 2;
        o->data.error.len = len - 2;
        return GOOD;
    }
    o->data.octets.octets = p;
    o->data.octets.len = len;
    return GOOD;
}

static size_t option_size(const struct option_view *o)
{
    switch (o->code) {
    case 8:
        return 4 + (o->data.subnet.source + 7u) / 8;
    case 9:
        return o->data.number.given ? 4 : 0;
    case 10:
        return 8 + o->data.cookie.server_len;
    case 11:
        return o->data.number.given ? 2 : 0;
    case 15:
        return 2 + o->data.error.len;
    default:
        return o->data.octets.len;
    }
}

/* Adds the codes and sizes of a list of options: first the list is seen to be whole, and then each option is read. */
static int read_options(const struct record_view *opt, uint64_t *sum)
{
    const uint8_t *p = opt->data;
    size_t at = 0, size = opt->size;
    while (at < size) {
        if (size - at < 4 || size - at - 4 < two_at(p + at + 2))
            return SHORT_INPUT;
        at += 4u + two_at(p + at + 2);
    }
    for (at = 0; at < size; at += 4u + two_at(p + at + 2)) {
        struct option_view o;
        int error = read_option(two_at(p + at), p + at + 4, two_at(p + at + 2), &o);
        if (error)
            return error;
        *sum += o.code + option_size(&o);
    }
    return GOOD;
}

/* Adds the numbers of a message: header, questions, records of the three sections, and options. */
static int reading(const uint8_t *message, size_t size, uint64_t *sum)
{
    if (size < 12)
        return SHORT_INPUT;
    size_t at = 12;
    *sum += two_at(message) + (message[3] & 15u);
    for (unsigned left = two_at(message + 4); left > 0; left--) {
        struct question_view q;
        int error = read_question(message, size, &at, &q);
        if (error)
            return error;
        *sum += q.type + q.class;
    }
    for (int section = 0; section < 3; section++) {
        for (unsigned left = two_at(message + 6 + 2 * section); left > 0; left--) {
            struct record_view r;
            int error = read_record(message, size, &at, &r);
            if (error)
                return error;
            *sum += (uint64_t)r.type + r.class + r.ttl + r.size;
            if (r.type == 41 && (error = read_options(&r, sum)) != GOOD)
                return error;
        }
    }
    return GOOD;
}

static int readings(uint8_t *message, size_t size, uint64_t count, uint64_t *sum)
{
    for (uint64_t i = 0; i < count; i++) {
        message[0] = (uint8_t)(i >> 8);
        message[1] = (uint8_t)i;
        int error = reading(message, size, sum);
        if (error)
            return error;
    }
    return GOOD;
}

/* ---- building ---- */

/* A message after two octets for its length, in one buffer that grows. */
struct message {
    uint8_t *octets;
    size_t len, room, limit;
};

struct name {
    const char *octets;
    size_t len;
};

#define NAME(text) {text, sizeof text}

struct record {
    struct name owner;
    uint16_t type, class;
    uint32_t ttl;
    union {
        uint8_t address[16]; /* of an A record, the first four */
        struct {
            uint16_t preference;
            struct name name;
        } named; /* of an NS record without the preference */
    } data;
};

#define COM "\007example\003com"

static const struct name QNAME = NAME(COM);

static const struct record ANSWER[] = {
    {NAME(COM), 1, 1, 300, {{192, 0, 2, 1}}},
    {NAME(COM), 1, 1, 300, {{192, 0, 2, 2}}},
    {NAME(COM), 28, 1, 300, {{0x20, 0x01, 0x0d, 0xb8, [15] = 1}}},
    {NAME(COM), 15, 1, 3600, {.named = {10, NAME("\004mail" COM)}}},
};

static const struct record AUTHORITY[] = {
    {NAME(COM), 2, 1, 86400, {.named = {0, NAME("\003ns1" COM)}}},
    {NAME(COM), 2, 1, 86400, {.named = {0, NAME("\003ns2" COM)}}},
};

static const struct record ADDITIONAL[] = {
    {NAME("\003ns1" COM), 1, 1, 86400, {{192, 0, 2, 53}}},
    {NAME("\003ns1" COM), 28, 1, 86400, {{0x20, 0x01, 0x0d, 0xb8, [15] = 0x53}}},
    {NAME("\003ns2" COM), 1, 1, 86400, {{198, 51, 100, 53}}},
    {NAME("\004mail" COM), 1, 1, 3600, {{192, 0, 2, 25}}},
};

/* Makes room for that many octets within the limit, and gives the place where they go. */
static int reserve(struct message *m, size_t size, uint8_t **at)
{
    if (m->len - 2 + size > m->limit)
        return SHORT_BUFFER;
    if (m->len + size > m->room) {
        size_t room = m->room * 2 > m->len + size ? m->room * 2 : m->len + size;
        uint8_t *octets = realloc(m->octets, room);
        if (octets == NULL)
            return NO_MEMORY;
        m->octets = octets;
        m->room = room;
    }
    *at = m->octets + m->len;
    return GOOD;
}

static uint8_t *put_two(uint8_t *p, uint16_t n)
{
    p[0] = (uint8_t)(n >> 8);
    p[1] = (uint8_t)n;
    return p + 2;
}

static uint8_t *put_octets(uint8_t *p, const void *octets, size_t len)
{
    memcpy(p, octets, len);
    return p + len;
}

/* Counts one more item at a place of the header, and takes the octets in. */
static void count(struct message *m, size_t at, size_t size)
{
    put_two(m->octets + 2 + at, (uint16_t)(two_at(m->octets + 2 + at) + 1));
    m->len += size;
}

static int start(struct message *m, uint16_t id)
{
    m->octets = calloc(14, 1);
    m->len = m->room = 14;
    m->limit = 512;
    if (m->octets == NULL)
        return NO_MEMORY;
    put_two(m->octets + 2, id);
    m->octets[4] = 0x81;
    m->octets[5] = 0x80;
    return GOOD;
}

static int push_question(struct message *m, const struct name *name, uint16_t type, uint16_t class)
{
    uint8_t *p;
    int error = reserve(m, name->len + 4, &p);
    if (error)
        return error;
    put_two(put_two(put_octets(p, name->octets, name->len), type), class);
    count(m, 4, name->len + 4);
    return GOOD;
}

static size_t data_size(const struct record *r)
{
    switch (r->type) {
    case 1:
        return 4;
    case 28:
        return 16;
    case 15:
        return 2 + r->data.named.name.len;
    default:
        return r->data.named.name.len;
    }
}

static int push_record(struct message *m, size_t section, const struct record *r)
{
    size_t size = data_size(r);
    uint8_t *p;
    int error = reserve(m, r->owner.len + 10 + size, &p);
    if (error)
        return error;
    p = put_octets(p, r->owner.octets, r->owner.len);
    p = put_two(put_two(p, r->type), r->class);
    p = put_two(put_two(p, (uint16_t)(r->ttl >> 16)), (uint16_t)r->ttl);
    p = put_two(p, (uint16_t)size);
    switch (r->type) {
    case 1:
    case 28:
        put_octets(p, r->data.address, size);
        break;
    case 15:
        p = put_two(p, r->data.named.preference);
        put_octets(p, r->data.named.name.octets, r->data.named.name.len);
        break;
    default:
        put_octets(p, r->data.named.name.octets, r->data.named.name.len);
    }
    count(m, 6 + 2 * section, r->owner.len + 10 + size);
    return GOOD;
}

static int push_all(struct message *m, size_t section, const struct record *records, size_t many)
{
    for (size_t i = 0; i < many; i++) {
        int error = push_record(m, section, &records[i]);
        if (error)
            return error;
    }
    return GOOD;
}

/* Begins an option: its data goes where *at says. */
static int push_option(struct message *m, uint16_t code, size_t len, uint8_t **at)
{
    int error = reserve(m, 4 + len, at);
    if (error)
        return error;
    *at = put_two(put_two(*at, code), (uint16_t)len);
    m->len += 4 + len;
    return GOOD;
}

/* The OPT record with its five options, written in place; its length is known at the end. */
static int push_opt(struct message *m, const struct cookie *cookie)
{
    static const char ID[] = "ns1.site", TEXT[] = "Stale Answer";
    uint8_t *p;
    size_t from = m->len;
    int error = reserve(m, 11, &p);
    if (error)
        return error;
    memset(p, 0, 11);
    put_two(p + 1, 41);
    put_two(p + 3, 1232);
    put_two(p + 7, 0x8000);
    m->len += 11;
    if ((error = push_option(m, 10, 8 + cookie->server_len, &p)) != GOOD)
        return error;
    put_octets(put_octets(p, cookie->client, 8), cookie->server, cookie->server_len);
    if ((error = push_option(m, 3, strlen(ID), &p)) != GOOD)
        return error;
    put_octets(p, ID, strlen(ID));
    if ((error = push_option(m, 15, 2 + strlen(TEXT), &p)) != GOOD)
        return error;
    put_octets(put_two(p, 3), TEXT, strlen(TEXT));
    if ((error = push_option(m, 11, 2, &p)) != GOOD)
        return error;
    put_two(p, 100);
    if ((error = push_option(m, 12, 51, &p)) != GOOD)
        return error;
    memset(p, 0, 51);
    put_two(m->octets + from + 9, (uint16_t)(m->len - from - 11));
    count(m, 10, 0);
    return GOOD;
}

#define MANY(xs) (sizeof(xs) / sizeof(xs)[0])

static int response(struct message *m, uint16_t id)
{
    int error = start(m, id);
    if (!error)
        error = push_question(m, &QNAME, 1, 1);
    if (!error)
        error = push_all(m, 0, ANSWER, MANY(ANSWER));
    if (!error)
        error = push_all(m, 1, AUTHORITY, MANY(AUTHORITY));
    if (!error)
        error = push_all(m, 2, ADDITIONAL, MANY(ADDITIONAL));
    if (!error)
        error = push_opt(m, &COMING[0].cookie);
    if (!error)
        put_two(m->octets, (uint16_t)(m->len - 2));
    return error;
}

/* The sum of the lengths and of the hash of the last one. */
static int built(uint64_t count, uint64_t *sum)
{
    static const uint8_t zero[16];
    for (uint64_t i = 0; i < count; i++) {
        struct message m;
        int error = response(&m, (uint16_t)i);
        if (!error) {
            *sum += m.len - 2;
            if (i == count - 1)
                *sum += siphash24(zero, m.octets + 2, m.len - 2);
        }
        free(m.octets);
        if (error)
            return error;
    }
    return GOOD;
}

int main(int argc, char **argv)
{
    if (argc != 3)
        return 2;
    uint64_t many = strtoull(argv[2], NULL, 10), sum = 0;
    uint8_t octets[512] = {0};
    int error = GOOD;
    if (strcmp(argv[1], "sip20") == 0) {
        sum = hash_chain(octets, 20, many);
    } else if (strcmp(argv[1], "sip64") == 0) {
        sum = hash_chain(octets, 64, many);
    } else if (strcmp(argv[1], "check") == 0) {
        sum = checks(many);
    } else if (strcmp(argv[1], "read") == 0) {
        memcpy(octets, RESPONSE, 512);
        error = readings(octets, 512, many, &sum);
    } else if (strcmp(argv[1], "build") == 0) {
        error = built(many, &sum);
    } else {
        return 2;
    }
    if (error)
        return 1;
    printf("%016" PRIx64 "\n", sum);
    return 0;
}
