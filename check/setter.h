/* The setter for C: a book is opened in memory that the caller lends, calls go in as bytes, answers come out as bytes.
   The bytes of calls and answers, the refusals and the ranges of all numbers are in docs/NUMBERS.md.

   Each function gives one number. Below 0 it is a refusal: -(its number * 2^32 + its place).

   A slice is a pointer and behind it how many elements it has. What is owed for each: the pointer is not null, not even
   where the length is 0, and aligned for its elements; so many of them can be read, and, where the pointer is not to
   const, written, and lie in one object; during a call no slice overlaps one that is not const, and no one else uses
   them. Nothing is kept of them from one call to the next but what stands in them. Nothing else is asked for:
   any content and any numbers are answered. */
#ifndef SETTER_H
#define SETTER_H
#include <stddef.h>
#include <stdint.h>

#define SETTER_REFUSAL(r) ((int)(-(r) >> 32))      /* the refusal's number, where r is below 0 */
#define SETTER_PLACE(r) ((uint32_t)(-(r)))         /* its place */

/* How much a book with these limits asks for: bytes of `tokens`, and numbers of `rest`.
   Refused by 3, place 2, where a limit is out of range. */
int64_t setter_tokens_asked(uint32_t paragraphs, uint32_t tokens, uint32_t definitions, uint32_t bulk);
int64_t setter_rest_asked(uint32_t paragraphs, uint32_t tokens, uint32_t definitions, uint32_t bulk);

/* Opens a book without paragraphs in `tokens` and `rest`; what they held is gone, but for what lies behind what is asked for.
   Takes the limits (paragraphs, tokens, definitions, and bulk: the most that one paragraph may be), the widths of the
   characters 32 to 126, which are 95, the width of lines and the rows of a page.
   Gives 0 where the book is open. Else it is refused by 3, and nothing changes: place 2 where something is out of range
   or there are not just 95 widths, else 0 where `tokens` is too short, else 1 where `rest` is. */
int64_t setter_open(uint8_t *tokens, size_t tokens_len, uint64_t *rest, size_t rest_len,
                    uint32_t paragraphs, uint32_t limit_tokens, uint32_t definitions, uint32_t bulk,
                    const uint8_t *widths, size_t widths_len, uint32_t width, uint32_t rows);

/* Makes the call that `bytes` are, on the book in `tokens` and `rest`, and writes the answer from the start of `out`.
   Gives how many bytes the answer has; for a refusal the number below 0, and its 6 bytes stand in `out` too.
   What is refused changes nothing of the book. Gives 0 where `out` is shorter than setter_room(), and then nothing
   is written or changed. */
int64_t setter_call(uint8_t *tokens, size_t tokens_len, uint64_t *rest, size_t rest_len,
                    const uint8_t *bytes, size_t bytes_len, uint8_t *out, size_t out_len);

/* How many bytes the longest answer has: 163858. */
int64_t setter_room(void);
#endif
