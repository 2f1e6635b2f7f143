/*
 * The bench's sender in small: makes a greeting, cuts it into frames, joins them as a server would, and reads what was joined.
 *
 *     sender [NAME]
 *
 * The tape is the same in each run, so that the output is too. A sender that greets a server fills it with fresh random bytes.
 */
#include <stdio.h>
#include <stdlib.h>
#include <string.h>

#include "crustdelta.h"

static uint8_t tape[1808];
static uint8_t hello[2048];
static uint8_t frames[4096];
static uint8_t stream[CRUSTDELTA_HELLO_MAX];
static uint8_t marks[CRUSTDELTA_HELLO_MAX];

/* The answer of a call, printed after its name; a refusal ends the program. */
static size_t answered(const char *call, uint64_t answer)
{
    if (answer >= CRUSTDELTA_REFUSED) {
        printf("%s: refused with %u\n", call, (unsigned)(answer - CRUSTDELTA_REFUSED));
        exit(1);
    }
    printf("%s: %u\n", call, (unsigned)answer);
    return (size_t)answer;
}

/* The report is written as bytes, and a struct may want them aligned: so they are copied. */
static void print_report(size_t end)
{
    uint8_t bytes[CRUSTDELTA_REPORT_LENGTH];
    struct crustdelta_report report;
    answered("report", crustdelta_report(stream, end, bytes, sizeof bytes));
    memcpy(&report, bytes, sizeof report);
    printf("  %u suites, %u extensions, %u transport parameters\n", report.cipher_suite_count, report.extension_count,
           report.transport_param_count);
    printf("  name %.*s\n", report.sni.length, (const char *)stream + report.sni.start);
}

int main(int argc, char **argv)
{
    const char *name = argc > 1 ? argv[1] : "www.example.org";
    size_t length, end;

    length = answered("make", crustdelta_make(CRUSTDELTA_CHROME, (const uint8_t *)name, strlen(name), (const uint8_t *)"", 0, tape,
                                              sizeof tape, hello, sizeof hello));
    length = answered("frames", crustdelta_frames(1000, hello, length, frames, sizeof frames));
    end = answered("join", crustdelta_join(frames, length, stream, sizeof stream, marks, sizeof marks));
    answered("read", crustdelta_read(stream, end));
    print_report(end);
    return 0;
}
