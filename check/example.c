/* A book in this program's own arrays. To build and run it, in the repository's folder:
       (cd crates/exports && rt lib)
       gcc -O2 -Wall -Wextra check/example.c crates/exports/out/libexports.a -o target/example
       target/example
   The archive needs nothing but memcpy and memset of the C library. */
#include <stdio.h>
#include <string.h>
#include "setter.h"

enum { PARAGRAPHS = 8, TOKENS = 400, DEFINITIONS = 0, BULK = 300, WIDTH = 36, ROWS = 20, ROOM = 163858 };

static uint8_t tokens[4 * TOKENS];
static uint64_t rest[8 * (PARAGRAPHS + TOKENS + DEFINITIONS) + 32 * BULK + 4096];
static uint8_t out[ROOM];

static int told(const char *what, int64_t r) {
    if (r < 0)
        printf("%s: refused by %d, place %u\n", what, SETTER_REFUSAL(r), SETTER_PLACE(r));
    return r >= 0;
}

static int64_t call(const uint8_t *bytes, size_t n) {
    return setter_call(tokens, sizeof tokens, rest, sizeof rest / sizeof *rest, bytes, n, out, sizeof out);
}

/* A text of letters and single spaces, with notes in braces, becomes paragraph k. */
static int64_t put(unsigned k, const char *text) {
    uint8_t bytes[3 + 2 * 1000] = {0, k >> 8, k & 255};
    size_t n = 3;
    for (; *text && n + 2 <= sizeof bytes; text++) {
        if (*text == ' ') {
            bytes[n++] = 1;
        } else if (*text == '{') {
            bytes[n++] = 4;
        } else if (*text == '}') {
            bytes[n++] = 7;
        } else {
            bytes[n++] = 0;
            bytes[n++] = (uint8_t)*text;
        }
    }
    return call(bytes, n);
}

static int64_t show(uint32_t page, unsigned row, unsigned count) {
    const uint8_t bytes[] = {3, page >> 24, page >> 16 & 255, page >> 8 & 255, page & 255, row >> 8, row & 255, count >> 8, count & 255};
    return call(bytes, sizeof bytes);
}

/* The one row of the answer: behind 2, 1 and a count of letters, each letter with its place. All are 1 wide. */
static void print_row(void) {
    char line[1001];
    memset(line, ' ', sizeof line);
    unsigned letters = out[2] << 8 | out[3], end = 0;
    for (unsigned i = 0; i < letters; i++) {
        const uint8_t *p = out + 4 + 5 * i;
        uint32_t at = (uint32_t)p[1] << 24 | p[2] << 16 | p[3] << 8 | p[4];
        if (at >= sizeof line)
            continue;
        line[at] = (char)p[0];
        end = at + 1 > end ? at + 1 : end;
    }
    printf("|%.*s\n", (int)end, line);
}

int main(void) {
    uint8_t widths[95];
    memset(widths, 1, sizeof widths);
    printf("asked for: %lld bytes, %lld numbers; room for an answer: %lld\n",
           (long long)setter_tokens_asked(PARAGRAPHS, TOKENS, DEFINITIONS, BULK),
           (long long)setter_rest_asked(PARAGRAPHS, TOKENS, DEFINITIONS, BULK), (long long)setter_room());
    told("asking for 5000 paragraphs", setter_tokens_asked(5000, TOKENS, DEFINITIONS, BULK));
    told("calling before opening", put(0, "too soon"));
    told("opening with 94 widths", setter_open(tokens, sizeof tokens, rest, sizeof rest / sizeof *rest, PARAGRAPHS, TOKENS,
                                               DEFINITIONS, BULK, widths, 94, WIDTH, ROWS));
    told("opening in 10 numbers", setter_open(tokens, sizeof tokens, rest, 10, PARAGRAPHS, TOKENS,
                                              DEFINITIONS, BULK, widths, 95, WIDTH, ROWS));
    if (!told("opening", setter_open(tokens, sizeof tokens, rest, sizeof rest / sizeof *rest, PARAGRAPHS, TOKENS,
                                     DEFINITIONS, BULK, widths, 95, WIDTH, ROWS)))
        return 1;
    told("first paragraph", put(0, "Be it enacted that every bill be set in lines of one width, broken the best way for the whole paragraph."));
    told("second paragraph", put(1, "A page has so many rows,{Those of its notes at the foot are behind those of its lines.} and a row is asked for by its number."));
    told("a paragraph past the last", put(7, "nowhere"));
    told("bytes that are no call", call((const uint8_t[]){5, 5}, 2));
    for (unsigned row = 0; told("that was all", show(0, row, 1)); row++)
        print_row();
    return 0;
}
