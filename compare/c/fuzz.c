/*
 * A target for libFuzzer: the first byte picks the call, the rest is its input. What the calls answer must hang together: numbers within
 * the call's own, buffers as the header says, and a report, number and comparison that agree.
 *
 * The inputs are copied to memory of their own length, and the address sanitizer watches this caller; the archive itself is not
 * instrumented (compare/run has valgrind watch it).
 */
#include <stdio.h>
#include <stdlib.h>
#include <string.h>

#include "crustdelta.h"

/*
 * Which answers an input had: libFuzzer takes these for branches, since it sees none of the archive's. A row for each thing that is told.
 */
static uint8_t seen[8][128] __attribute__((section("__libfuzzer_extra_counters")));

static void note(unsigned row, uint64_t value)
{
    seen[row][value % 128] = 1;
}

/* Stops where something does not hold, so that libFuzzer keeps the input. */
static void must(int holds, const char *what)
{
    if (holds)
        return;
    fprintf(stderr, "fuzz: %s\n", what);
    abort();
}

static int refuses_with(uint64_t answer, unsigned least, unsigned most)
{
    return CRUSTDELTA_REFUSED + least <= answer && answer <= CRUSTDELTA_REFUSED + most;
}

static uint8_t *room(size_t length, uint8_t with)
{
    uint8_t *at = malloc(length + (length == 0));
    must(at != NULL, "no memory");
    memset(at, with, length + (length == 0));
    return at;
}

static size_t count(const uint8_t *at, size_t from, size_t to, uint8_t of)
{
    size_t found = 0;
    for (size_t i = from; i < to; i++)
        found += at[i] == of;
    return found;
}

static void join(const uint8_t *frames, size_t length)
{
    const size_t most = CRUSTDELTA_HELLO_MAX;
    uint8_t *out = room(most, 0xa5), *marks = room(most, 0x5a);
    uint64_t end = crustdelta_join(frames, length, out, most, marks, most);
    size_t ones = end < CRUSTDELTA_REFUSED ? (size_t)end : 0;
    note(0, end < CRUSTDELTA_REFUSED ? 64 + end / 256 : end);
    must(end <= most || refuses_with(end, 11, 15), "an end of at most 16,384, or 11 to 15");
    must(count(marks, 0, ones, 1) == ones, "marks of 1 below the end");
    must(count(marks, ones, most, 0) == most - ones, "marks of 0 from there on");
    must(count(out, ones, most, 0) == most - ones, "zeros after the stream");
    free(out), free(marks);
}

static void check_lists(const struct crustdelta_report *r)
{
    note(2, r->cipher_suite_count);
    note(3, r->extension_count);
    note(4, r->supported_group_count + 8u * r->signature_algorithm_count);
    note(5, r->key_share_group_count + 16u * r->supported_version_count);
    note(6, r->transport_param_count);
    note(7, r->alpn_count + 32u * r->sni_count);
    must(r->session_id_length <= 32 && r->sni_count <= 1 && r->alpn_count <= 16, "session id, name, protocols");
    must(1 <= r->cipher_suite_count && r->cipher_suite_count <= 64 && r->extension_count <= 64, "suites, types");
    must(r->supported_group_count <= 64 && r->key_share_group_count <= 64, "groups");
    must(r->signature_algorithm_count <= 64 && r->supported_version_count <= 64, "algorithms, versions");
    must(r->transport_param_count <= 64, "transport parameters");
    for (unsigned i = r->cipher_suite_count; i < 64; i++)
        must(r->cipher_suites[i] == 0, "zeros past the suites");
    for (unsigned i = r->extension_count; i < 64; i++)
        must(r->extensions[i] == 0, "zeros past the types");
    for (unsigned i = r->transport_param_count; i < 64; i++)
        must(r->transport_param_ids[i] == 0, "zeros past the ids");
}

/* The report of a hello and its number agree; ranges lie inside the hello; it is like itself exactly where it is accepted. */
static void report(const uint8_t *hello, size_t length)
{
    const size_t most = CRUSTDELTA_REPORT_LENGTH;
    uint8_t *out = room(most, 0xa5);
    uint64_t number = crustdelta_read(hello, length), answer = crustdelta_report(hello, length, out, most);
    note(1, number);
    must(number == 0 ? answer == most : number == answer && refuses_with(number, 16, 23), "one number for reading and report");
    must(crustdelta_alike(hello, length, hello, length) == (number == 0), "like itself where it is accepted");
    if (number == 0) {
        struct crustdelta_report r;
        memcpy(&r, out, sizeof r);
        check_lists(&r);
        must((size_t)r.sni.start + r.sni.length <= length, "the name inside the hello");
        for (unsigned i = 0; i < 16; i++)
            must((size_t)r.alpn[i].start + r.alpn[i].length <= length, "protocols inside the hello");
    } else {
        must(count(out, 0, most, 0xa5) == most, "all bytes as they were at a refusal");
    }
    must(crustdelta_report(hello, length, out, most - 1) == (number ? number : CRUSTDELTA_REFUSED + CRUSTDELTA_TOO_SHORT), "no room: 100");
    free(out);
}

/* Frames that are joined to a hello, which is then read. */
static void join_and_report(const uint8_t *frames, size_t length)
{
    const size_t most = CRUSTDELTA_HELLO_MAX;
    uint8_t *out = room(most, 0), *marks = room(most, 0);
    uint64_t end = crustdelta_join(frames, length, out, most, marks, most);
    if (end < CRUSTDELTA_REFUSED)
        report(out, (size_t)end);
    free(out), free(marks);
}

int LLVMFuzzerTestOneInput(const uint8_t *data, size_t size)
{
    if (size == 0)
        return 0;
    uint8_t *input = room(size - 1, 0);
    memcpy(input, data + 1, size - 1);
    switch (data[0] % 4) {
    case 0:
        join(input, size - 1);
        break;
    case 1:
        join_and_report(input, size - 1);
        break;
    default:
        report(input, size - 1);
    }
    free(input);
    return 0;
}
