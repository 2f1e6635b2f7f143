/*
 * Crustdelta: makes the ClientHello of Chrome, Firefox or curl, cuts it into QUIC CRYPTO frames, joins such frames, reads a ClientHello
 * and says whether two are alike.
 *
 * Every call takes any bytes, any numbers and buffers of any length; the library keeps nothing between calls, allocates nothing and may be
 * called from any number of threads. It takes up to some 110 KB of stack, for a hello with more than 64 transport parameters; else a few.
 * What a call does is proved: docs/PROVED.md names the definitions.
 *
 * A pointer whose length is 0 is not read, but must not be NULL. The buffers that a call writes to must not overlap each other or what it
 * reads.
 *
 * Answers. A call that refuses answers CRUSTDELTA_REFUSED (2^32) plus a number: that of the first question, from top to bottom, to which
 * the answer is no. Every other answer is below 2^32.
 *
 *    4  the profile is not one of the three            16  the hello has more than 16,384 bytes
 *    5  the name has 0, or more than 255, bytes        17  its first byte is not there, or not 01
 *    6  a byte of the name may not stand in one        18  its 3-byte length is not there, or not that of the rest
 *    7  the connection id has more than 20 bytes       19  its fields, or the extension block, are not in their form
 *    8  the tape is too short                          20  an extension's header or body is not inside the block
 *    9  the output is too short                        21  an extension's type stands twice, or its body is not in its form
 *   10  output or marks have less than 16,384 bytes    22  a transport parameter's id stands twice
 *   11  a frame's type is none of 00, 01, 06           23  a list has more than 64 entries, or more than 16 names
 *   12  a frame is cut                                 24  the data of a frame is to have 0, or more than 16,384, bytes
 *   13  a frame ends past 16,384                       25  the hello has more than 16,384 bytes
 *   14  two frames give one place two bytes            26  the output is too short
 *   15  a byte below the end was not sent             100  the buffer of a report is too short
 */
#ifndef CRUSTDELTA_H
#define CRUSTDELTA_H

#include <stddef.h>
#include <stdint.h>

#ifdef __cplusplus
extern "C" {
#endif

#define CRUSTDELTA_CHROME 0
#define CRUSTDELTA_FIREFOX 1
#define CRUSTDELTA_CURL 2

/* A refusal is this plus its number. */
#define CRUSTDELTA_REFUSED ((uint64_t)1 << 32)

/* The number of a report that does not fit the buffer, beside those of document 01. */
#define CRUSTDELTA_TOO_SHORT 100

/* The most that a hello may have, and the least that crustdelta_join wants of its output and of its marks. */
#define CRUSTDELTA_HELLO_MAX 16384

/*
 * Makes a hello.
 *
 * profile   one of the three above; any other number is refused, however large
 * name      the server's name, 1 to 255 bytes, each from 33 to 126
 * scid      the source connection id, 0 to 20 bytes
 * tape      the random bytes that the hello is made of: 1,726 for Chrome, 1,808 for Firefox, 416 for curl; more do no harm
 * out       room for the longest hello: 1,734 bytes and the name for Chrome, 1,833 and name and connection id for Firefox, 490 and the
 *           name for curl
 *
 * Answers the hello's length. The hello is the front of out, later bytes stay; at a refusal (4 to 9) all of out stays. One tape gives one
 * hello: use fresh random bytes for each greeting.
 */
uint64_t crustdelta_make(uint64_t profile, const uint8_t *name, size_t name_length, const uint8_t *scid, size_t scid_length,
                         const uint8_t *tape, size_t tape_length, uint8_t *out, size_t out_length);

/* Reads a hello and builds no report. Answers 0, or refuses (16 to 23). */
uint64_t crustdelta_read(const uint8_t *hello, size_t hello_length);

/* A part of a hello: its first place, and its length. */
struct crustdelta_range {
    uint16_t start;
    uint16_t length;
};

/*
 * A report, as crustdelta_report writes it: 1,368 bytes, each number little endian, nothing between the fields. On a little-endian machine
 * it can be read through this struct; elsewhere the offsets beside the fields tell. Places of a list past its count hold zeros.
 */
struct crustdelta_report {
    uint16_t session_id_length;         /*   0 */
    uint16_t cipher_suite_count;        /*   2 */
    uint16_t extension_count;           /*   4 */
    uint16_t supported_group_count;     /*   6 */
    uint16_t key_share_group_count;     /*   8 */
    uint16_t signature_algorithm_count; /*  10 */
    uint16_t supported_version_count;   /*  12 */
    uint16_t alpn_count;                /*  14 */
    uint16_t transport_param_count;     /*  16 */
    uint16_t sni_count;                 /*  18: 1 where the hello has a name, else 0 */
    struct crustdelta_range sni;        /*  20: the name's part of the hello */
    uint16_t cipher_suites[64];         /*  24 */
    uint16_t extensions[64];            /* 152: types, in the order of the hello */
    uint16_t supported_groups[64];      /* 280 */
    uint16_t key_share_groups[64];      /* 408 */
    uint16_t signature_algorithms[64];  /* 536 */
    uint16_t supported_versions[64];    /* 664 */
    struct crustdelta_range alpn[16];   /* 792: the names' parts of the hello */
    uint64_t transport_param_ids[64];   /* 856 */
};

#define CRUSTDELTA_REPORT_LENGTH 1368

/*
 * Reads a hello and reports what is in it. Answers CRUSTDELTA_REPORT_LENGTH; the report is the front of out, later bytes stay. Refuses
 * as crustdelta_read does (16 to 23), and then with 100 where out is shorter than that; all of out stays at a refusal.
 */
uint64_t crustdelta_report(const uint8_t *hello, size_t hello_length, uint8_t *out, size_t out_length);

/*
 * Joins the CRYPTO frames of a list of frames (PADDING, PING and CRYPTO), sent in any order and more than once.
 *
 * Answers the end of the stream. The stream is the front of out, and zeros stand after it; each place of marks below the end holds 1, the
 * others 0. At 10 both buffers stay; at any other refusal (11 to 15) both are all zero.
 */
uint64_t crustdelta_join(const uint8_t *frames, size_t frames_length, uint8_t *out, size_t out_length, uint8_t *marks, size_t marks_length);

/*
 * Cuts a hello into CRYPTO frames of c bytes of data each, the last perhaps shorter, in the order of their offsets.
 *
 * Answers the length of all frames; they are the front of out, later bytes stay. All of out stays at a refusal (24 to 26).
 */
uint64_t crustdelta_frames(uint64_t c, const uint8_t *hello, size_t hello_length, uint8_t *out, size_t out_length);

/*
 * Answers 1 where both hellos are accepted and agree in session id length, name, suites, groups, key-share groups, signature algorithms,
 * versions and ALPN, each list in order, and in extension types and transport parameter ids, in any order; else 0. Ids that are 27 mod 31
 * are reserved, and count as one another.
 */
uint64_t crustdelta_alike(const uint8_t *a, size_t a_length, const uint8_t *b, size_t b_length);

#ifdef __cplusplus
}
#endif

#endif
