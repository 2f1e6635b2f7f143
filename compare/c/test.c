/*
 * The C library as C sees it: each call of include/crustdelta.h on cases with known answers. Nothing else holds the header against the
 * archive. Every buffer that a call gets is allocated at its length, so that valgrind sees a byte read or written past it.
 *
 * Prints the number of checks; exits with 1 where one fails.
 */
#include <stddef.h>
#include <stdio.h>
#include <stdlib.h>
#include <string.h>

#include "crustdelta.h"

static unsigned checks, failed;

static void check(const char *what, uint64_t known, uint64_t given)
{
    checks++;
    if (known == given)
        return;
    failed++;
    printf("%s: known %llu, given %llu\n", what, (unsigned long long)known, (unsigned long long)given);
}

static uint64_t no(unsigned number)
{
    return CRUSTDELTA_REFUSED + number;
}

/* Bytes of their own, at least one so that the pointer is never NULL. */
struct bytes {
    uint8_t *at;
    size_t length;
};

static struct bytes filled(size_t length, uint8_t with)
{
    struct bytes b = {malloc(length + (length == 0)), length};
    if (b.at == NULL)
        exit(2);
    memset(b.at, with, length + (length == 0));
    return b;
}

static struct bytes copied(const void *from, size_t length)
{
    struct bytes b = filled(length, 0);
    memcpy(b.at, from, length);
    return b;
}

/* How many bytes from a place on are not as given. */
static size_t unlike(struct bytes b, size_t from, uint8_t with)
{
    size_t count = 0;
    for (size_t i = from; i < b.length; i++)
        count += b.at[i] != with;
    return count;
}

/* ---- The layout that the header gives as a struct */

#define PLACE(field, offset) check("offset of " #field, offset, offsetof(struct crustdelta_report, field))

static void test_layout(void)
{
    check("size of a report", CRUSTDELTA_REPORT_LENGTH, sizeof(struct crustdelta_report));
    PLACE(session_id_length, 0);
    PLACE(cipher_suite_count, 2);
    PLACE(extension_count, 4);
    PLACE(supported_group_count, 6);
    PLACE(key_share_group_count, 8);
    PLACE(signature_algorithm_count, 10);
    PLACE(supported_version_count, 12);
    PLACE(alpn_count, 14);
    PLACE(transport_param_count, 16);
    PLACE(sni_count, 18);
    PLACE(sni, 20);
    PLACE(cipher_suites, 24);
    PLACE(extensions, 152);
    PLACE(supported_groups, 280);
    PLACE(key_share_groups, 408);
    PLACE(signature_algorithms, 536);
    PLACE(supported_versions, 664);
    PLACE(alpn, 792);
    PLACE(transport_param_ids, 856);
}

/* ---- Making */

struct making {
    const char *what;
    uint64_t profile;
    size_t name, scid, tape, out;
    uint8_t letter;
    uint64_t known;
};

/* A tape of zeros draws P = 150; names are one letter repeated. */
static const struct making makings[] = {
    {"Chrome", 0, 11, 8, 1726, 1745, 'a', 1695},
    {"Firefox", 1, 11, 8, 1808, 1852, 'a', 1802},
    {"curl", 2, 11, 8, 416, 501, 'a', 451},
    {"curl with much of all", 2, 255, 20, 3000, 3000, '~', 695},
    {"profile 3", 3, 11, 8, 1808, 2048, 'a', 4},
    {"profile 256", 256, 11, 8, 1808, 2048, 'a', 4},
    {"profile 2^32", (uint64_t)1 << 32, 11, 8, 1808, 2048, 'a', 4},
    {"profile 2^64 - 1", UINT64_MAX, 11, 8, 1808, 2048, 'a', 4},
    {"no name", 0, 0, 8, 1808, 2048, 'a', 5},
    {"a name of 256 bytes", 0, 256, 8, 1808, 2048, 'a', 5},
    {"a name of 65,537 bytes", 0, 65537, 8, 1808, 2048, 'a', 5},
    {"a name of spaces", 0, 11, 8, 1808, 2048, ' ', 6},
    {"a name of bytes 7f", 0, 11, 8, 1808, 2048, 0x7f, 6},
    {"a connection id of 21 bytes", 2, 11, 21, 1808, 2048, 'a', 7},
    {"a tape of 1,725 bytes for Chrome", 0, 11, 8, 1725, 2048, 'a', 8},
    {"a tape of 1,807 bytes for Firefox", 1, 11, 8, 1807, 2048, 'a', 8},
    {"a tape of 415 bytes for curl", 2, 11, 8, 415, 2048, 'a', 8},
    {"no tape", 2, 11, 8, 0, 2048, 'a', 8},
    {"an output of 1,744 bytes for Chrome", 0, 11, 8, 1726, 1744, 'a', 9},
    {"an output of 1,851 bytes for Firefox", 1, 11, 8, 1808, 1851, 'a', 9},
    {"no output", 2, 11, 8, 416, 0, 'a', 9},
};

static void test_make(const struct making *m)
{
    struct bytes name = filled(m->name, m->letter), scid = filled(m->scid, 0x5c), tape = filled(m->tape, 0);
    struct bytes out = filled(m->out, 0xa5);
    uint64_t given =
        crustdelta_make(m->profile, name.at, name.length, scid.at, scid.length, tape.at, tape.length, out.at, out.length);
    check(m->what, m->known < 10 ? no((unsigned)m->known) : m->known, given);
    check("bytes after the hello, or all at a refusal", 0, unlike(out, m->known < 10 ? 0 : (size_t)m->known, 0xa5));
    if (m->known >= 10) {
        check("the hello is read", 0, crustdelta_read(out.at, (size_t)m->known));
        check("and refused where a byte is missing", no(18), crustdelta_read(out.at, (size_t)m->known - 1));
    }
    free(name.at), free(scid.at), free(tape.at), free(out.at);
}

/* ---- Reading */

/* A hello of no session id, one suite, one compression byte, and these extensions. */
static struct bytes around(const void *extensions, size_t length)
{
    struct bytes b = filled(47 + length, 0);
    b.at[0] = 1;
    b.at[2] = (uint8_t)((43 + length) >> 8);
    b.at[3] = (uint8_t)(43 + length);
    b.at[4] = b.at[5] = 3;
    b.at[40] = 2;
    b.at[41] = 0x13;
    b.at[42] = 1;
    b.at[43] = 1;
    b.at[45] = (uint8_t)(length >> 8);
    b.at[46] = (uint8_t)length;
    memcpy(b.at + 47, extensions, length);
    return b;
}

struct reading {
    const char *what;
    const char *extensions;
    size_t length;
    unsigned known;
};

#define BYTES(text) text, sizeof text - 1

static const struct reading readings[] = {
    {"no extension", BYTES(""), 0},
    {"a name", BYTES("\0\0\0\x06\0\x04\0\0\x01z"), 0},
    {"a header that is cut", BYTES("\0\x17\0"), 20},
    {"a body past the block", BYTES("\0\x17\0\x01"), 20},
    {"a type twice", BYTES("\0\x17\0\0\0\x17\0\0"), 21},
    {"groups of an odd length", BYTES("\0\x0a\0\x05\0\x03\0\x1d\0"), 21},
    {"a name that is empty", BYTES("\0\0\0\x05\0\x03\0\0\0"), 21},
    {"a parameter that is cut", BYTES("\0\x39\0\x02\x01\x01"), 21},
    {"an id twice", BYTES("\0\x39\0\x06\x40\x64\0\x40\x64\0"), 22},
    {"an id in two widths", BYTES("\0\x39\0\x05\x01\0\x40\x01\0"), 22},
};

static void test_read(const struct reading *r)
{
    struct bytes hello = around(r->extensions, r->length), out = filled(CRUSTDELTA_REPORT_LENGTH + 1, 0xa5);
    uint64_t number = r->known ? no(r->known) : 0;
    check(r->what, number, crustdelta_read(hello.at, hello.length));
    check("its report", r->known ? number : CRUSTDELTA_REPORT_LENGTH, crustdelta_report(hello.at, hello.length, out.at, out.length));
    check("bytes after the report, or all at a refusal", 0, unlike(out, r->known ? 0 : CRUSTDELTA_REPORT_LENGTH, 0xa5));
    check("no room", r->known ? number : no(CRUSTDELTA_TOO_SHORT), crustdelta_report(hello.at, hello.length, out.at, 0));
    check("itself", r->known ? 0 : 1, crustdelta_alike(hello.at, hello.length, hello.at, hello.length));
    free(hello.at), free(out.at);
}

static void test_heads(void)
{
    struct bytes zeros = filled(CRUSTDELTA_HELLO_MAX + 1, 0), one = filled(4, 0);
    one.at[0] = 1;
    check("16,385 bytes", no(16), crustdelta_read(zeros.at, zeros.length));
    check("16,384 bytes 00", no(17), crustdelta_read(zeros.at, zeros.length - 1));
    check("no bytes", no(17), crustdelta_read(zeros.at, 0));
    check("01 alone", no(18), crustdelta_read(one.at, 1));
    check("01000000", no(19), crustdelta_read(one.at, 4));
    free(zeros.at), free(one.at);
}

/* ---- The report */

/* A list of 16-bit numbers: its count, its numbers, and zeros after them. */
static void check_list(const char *what, const uint16_t *known, size_t count, const uint16_t *given, uint16_t given_count)
{
    check(what, count, given_count);
    for (size_t i = 0; i < 64; i++)
        check(what, i < count ? known[i] : 0, given[i]);
}

static void check_range(const char *what, const char *known, struct bytes hello, struct crustdelta_range given)
{
    check(what, strlen(known), given.length);
    check(what, 0, memcmp(hello.at + given.start, known, strlen(known)) != 0);
}

#define LIST(known, field, count) check_list(#field, known, sizeof known / sizeof *known, r.field, r.count)

static void check_curl(struct bytes hello, const uint8_t *bytes)
{
    static const uint16_t suites[] = {0x1301, 0x1302, 0x1303}, groups[] = {0x001d, 0x0017, 0x0018}, shares[] = {0x001d};
    static const uint16_t types[] = {0x0000, 0x002b, 0x000a, 0x000d, 0x0010, 0x0033, 0x002d, 0x0039, 0x001b, 0xfe0d};
    static const uint16_t algorithms[] = {0x0403, 0x0503, 0x0603, 0x0804, 0x0805, 0x0806}, versions[] = {0x0304};
    /* zero draws move the first to the end */
    static const uint64_t ids[] = {3, 4, 5, 6, 7, 8, 9, 0x0e, 0x0f, 1};
    struct crustdelta_report r;
    memcpy(&r, bytes, sizeof r);
    check("session_id_length", 32, r.session_id_length);
    LIST(suites, cipher_suites, cipher_suite_count);
    LIST(types, extensions, extension_count);
    LIST(groups, supported_groups, supported_group_count);
    LIST(shares, key_share_groups, key_share_group_count);
    LIST(algorithms, signature_algorithms, signature_algorithm_count);
    LIST(versions, supported_versions, supported_version_count);
    check("sni_count", 1, r.sni_count);
    check_range("sni", "example.org", hello, r.sni);
    check("alpn_count", 1, r.alpn_count);
    check_range("alpn", "h3", hello, r.alpn[0]);
    for (size_t i = 1; i < 16; i++)
        check("alpn past its count", 0, (uint64_t)r.alpn[i].start + r.alpn[i].length);
    check("transport_param_count", 10, r.transport_param_count);
    for (size_t i = 0; i < 64; i++)
        check("transport_param_ids", i < 10 ? ids[i] : 0, r.transport_param_ids[i]);
}

static void test_report(void)
{
    struct bytes tape = filled(416, 0), hello = filled(501, 0), out = filled(CRUSTDELTA_REPORT_LENGTH, 0xa5);
    size_t length = (size_t)crustdelta_make(CRUSTDELTA_CURL, (const uint8_t *)"example.org", 11, tape.at, 0, tape.at, 416, hello.at, 501);
    check("a byte too little room", no(CRUSTDELTA_TOO_SHORT), crustdelta_report(hello.at, length, out.at, out.length - 1));
    check("the room as it was", 0, unlike(out, 0, 0xa5));
    check("just enough room", CRUSTDELTA_REPORT_LENGTH, crustdelta_report(hello.at, length, out.at, out.length));
    check_curl(hello, out.at);
    free(tape.at), free(hello.at), free(out.at);
}

/* ---- Frames */

struct joining {
    const char *what;
    const char *frames;
    size_t length;
    uint64_t known;
    const char *stream;
};

static const struct joining joinings[] = {
    {"no bytes", BYTES(""), 0, ""},
    {"PADDING and PING", BYTES("\0\x01\0"), 0, ""},
    {"two frames, the second first", BYTES("\x06\x01\x01\xbb\x06\0\x01\xaa"), 2, "\xaa\xbb"},
    {"equal overlap", BYTES("\x06\0\x02\xaa\xbb\x06\x01\x01\xbb"), 2, "\xaa\xbb"},
    {"a type that is not known", BYTES("\x06\0\x01\xaa\xff"), 11, NULL},
    {"a frame that is cut", BYTES("\x06\0\x02\xaa"), 12, NULL},
    {"a frame past 16,384", BYTES("\x06\x80\0\x40\0\x01\xaa"), 13, NULL},
    {"two bytes for one place", BYTES("\x06\0\x01\xaa\x06\0\x01\xab"), 14, NULL},
    {"a gap", BYTES("\x06\x01\x01\xbb"), 15, NULL},
};

static void test_join(const struct joining *j)
{
    struct bytes frames = copied(j->frames, j->length);
    struct bytes out = filled(CRUSTDELTA_HELLO_MAX + 3, 0xa5), marks = filled(CRUSTDELTA_HELLO_MAX, 0x5a);
    size_t end = j->stream ? (size_t)j->known : 0;
    check(j->what, j->stream ? j->known : no((unsigned)j->known),
          crustdelta_join(frames.at, frames.length, out.at, out.length, marks.at, marks.length));
    check("the stream", 0, end != 0 && memcmp(out.at, j->stream, end) != 0);
    check("zeros after it", 0, unlike(out, end, 0));
    check("marks after it", 0, unlike(marks, end, 0));
    marks.length = end;
    check("marks", 0, unlike(marks, 0, 1));
    free(frames.at), free(out.at), free(marks.at);
}

/* Question 10 wants both buffers, and leaves both. */
static void test_short_buffers(void)
{
    struct bytes out = filled(CRUSTDELTA_HELLO_MAX, 0xa5), marks = filled(CRUSTDELTA_HELLO_MAX, 0x5a);
    check("a short output", no(10), crustdelta_join((const uint8_t *)"\xff", 1, out.at, out.length - 1, marks.at, marks.length));
    check("short marks", no(10), crustdelta_join((const uint8_t *)"\xff", 1, out.at, out.length, marks.at, marks.length - 1));
    check("the output stays", 0, unlike(out, 0, 0xa5));
    check("the marks stay", 0, unlike(marks, 0, 0x5a));
    free(out.at), free(marks.at);
}

struct cutting {
    const char *what;
    uint64_t c;
    size_t hello, out;
    uint64_t known;
};

static const struct cutting cuttings[] = {
    {"an empty hello", 1, 0, 0, 0},
    {"3 bytes by 2", 2, 3, 9, 9},
    {"3 bytes by 16,384", 16384, 3, 6, 6},
    {"16,384 bytes in one frame", 16384, 16384, 16390, 16390},
    {"c of 0", 0, 3, 9, 24},
    {"c of 16,385", 16385, 3, 9, 24},
    {"c of 2^32 + 1", ((uint64_t)1 << 32) + 1, 3, 9, 24},
    {"c of 2^64 - 1", UINT64_MAX, 3, 9, 24},
    {"16,385 bytes", 1, 16385, 100000, 25},
    {"a byte too little room", 2, 3, 8, 26},
};

static void test_frames(const struct cutting *k)
{
    struct bytes hello = filled(k->hello, 0x61), out = filled(k->out, 0xa5);
    int refuses = 24 <= k->known && k->known <= 26;
    check(k->what, refuses ? no((unsigned)k->known) : k->known, crustdelta_frames(k->c, hello.at, hello.length, out.at, out.length));
    check("bytes after the frames, or all at a refusal", 0, unlike(out, refuses ? 0 : (size_t)k->known, 0xa5));
    if (k->known == 9)
        check("two frames", 0, memcmp(out.at, "\x06\0\x02" "aa\x06\x02\x01" "a", 9) != 0);
    free(hello.at), free(out.at);
}

/* ---- Alike */

static struct bytes made(uint64_t profile, const char *name, uint8_t draw)
{
    struct bytes tape = filled(1808, draw), out = filled(2048, 0);
    out.length = (size_t)crustdelta_make(profile, (const uint8_t *)name, strlen(name), tape.at, draw % 21, tape.at, 1808, out.at, 2048);
    free(tape.at);
    return out;
}

static void test_alike(void)
{
    for (unsigned i = 0; i < 36; i++) {
        uint64_t first = i / 2 % 3, second = i / 6 % 3;
        struct bytes a = made(first, "example.org", 0), b = made(second, i % 2 ? "example.org" : "example.com", 0xff);
        check("alike exactly when profile and name are the same", first == second && i % 2,
              crustdelta_alike(a.at, a.length, b.at, b.length));
        check("not where one is cut", 0, crustdelta_alike(a.at, a.length, a.at, a.length - 1));
        free(a.at), free(b.at);
    }
}

#define EACH(cases, test)                                          \
    for (size_t i = 0; i < sizeof cases / sizeof *cases; i++)      \
    test(&cases[i])

int main(void)
{
    test_layout();
    EACH(makings, test_make);
    EACH(readings, test_read);
    test_heads();
    test_report();
    EACH(joinings, test_join);
    test_short_buffers();
    EACH(cuttings, test_frames);
    test_alike();
    printf("C library: %u checks, %u failed\n", checks, failed);
    return failed != 0;
}
