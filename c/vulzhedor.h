/*
 * Vulzhedor: charges, quotes, answers to inputs, whether two inputs offer the same bargains, and which has the better one.
 *
 * `rt lib` in crates/capi proves these functions and writes out/libcapi.a there. docs/RULES.md has the rules, the form
 * of an input and every refusal.
 *
 * What the caller owes: no pointer is NULL, also where a length is 0; a pointer with a length points to so many bytes;
 * memory that is written overlaps no other argument. Nothing else: any numbers and any bytes may be passed.
 *
 * A call writes to the memory and numbers handed over only what is said below, and keeps nothing. It allocates nothing,
 * holds no state, and may be made from several threads at once. It has its working memory on the stack:
 * vulzhedor_answer about 165 kB, vulzhedor_same_bargains and vulzhedor_better_bargain about 252 kB each, as
 * `c/run --stack` measures, the others next to none. No proof says that the stack suffices: a thread that calls one of
 * these three should have 512 kB or more.
 */
#ifndef VULZHEDOR_H
#define VULZHEDOR_H

#include <stddef.h>
#include <stdint.h>

#ifdef __cplusplus
extern "C" {
#endif

/*
 * What a call returns: 0, 255 or the number of a refusal. A quote returns 0, 3, 5 or 255; a comparison 0, 1, 3, 4, 5, 7, 8,
 * 11, 12 or 13. An answer returns 0 or 8 only: every refusal of an input, and of the question in it, stands in the text that
 * is written, those by 9, 10 and 14 too.
 */
enum {
    VULZHEDOR_DONE = 0,
    VULZHEDOR_FULL_SHEET = 1,         /* a stage at 16 stages, a task at 256 tasks */
    VULZHEDOR_WORK_OUT_OF_RANGE = 3,  /* work is 1 to 1,000,000 */
    VULZHEDOR_FULL_CARD = 4,          /* a line at 32 lines */
    VULZHEDOR_LINE_OUT_OF_RANGE = 5,  /* speed is 1 to 10,000, rate 0 to 1,000,000 */
    VULZHEDOR_TOO_FEW_CELLS = 7,      /* a question needs more than 4,096 cells */
    VULZHEDOR_TOO_SHORT = 8,          /* the memory is too short for the result */
    VULZHEDOR_ENDS_EARLY = 11,        /* an input ends where a byte of a number is due */
    VULZHEDOR_MISSPELT_NUMBER = 12,   /* a number too great, or not in its shortest form */
    VULZHEDOR_EXTRA_BYTES = 13,       /* bytes after the end of an input */
    VULZHEDOR_NO_QUOTE = 255          /* no refusal: the machine would take more than 1,440 minutes */
};

/* No text of an answer is longer: it has at most 4,096 lines of at most 22 bytes. */
#define VULZHEDOR_TEXT_BYTES 98304

/* What stands for the value of a refusal that carries none. */
#define VULZHEDOR_NOTHING_CARRIED UINT64_MAX

/*
 * The charge, in cents, for so many minutes at a rate in cents an hour: rate times minutes, divided by 60 and rounded up,
 * held at 10^15.
 */
uint64_t vulzhedor_charge(uint32_t rate, uint32_t minutes);

/*
 * The quote of a machine of this speed, in units a minute, and this rate, in cents an hour, for a work in units.
 *
 * Returns 0 with `minutes` and `cents` written; 255 where there is no quote; 3 for work out of range, else 5 for speed or
 * rate out of range. Unless it returns 0, `minutes` and `cents` keep what they held.
 */
uint32_t vulzhedor_quote(uint32_t speed, uint32_t rate, uint32_t work, uint32_t *minutes, uint64_t *cents);

/*
 * The text of the answer to an input (a card, a sheet and a question): what the program keysheet prints. It has the line
 * of each point of the front; or the line of a pair and of each task's machine; or the line of a refusal. It is not
 * ended by a byte 0.
 *
 * Returns 0 with the text at the start of the memory and its byte count in `written`, also where the text is the line of a
 * refusal; the memory past the text keeps what it held. Returns 8 exactly where the memory is too short for the text, and
 * then memory and `written` keep what they held. Of a longer input the first 1,024 bytes decide.
 */
uint32_t vulzhedor_answer(const uint8_t *input, size_t input_length, uint8_t *text, size_t text_length, size_t *written);

/*
 * Whether two inputs, a card and a sheet each with nothing behind them, offer the same bargains: for each assignment of
 * either there is one of the other that is no longer and no dearer, and every budget and every deadline is answered alike.
 *
 * Returns 0 with `equal` written, 1 or 0; `about` and `carried` keep what they held. Returns the number of a refusal with
 * `about` written: 1 or 2 for the input that is not read (the first is read first), 0 where the question on both is
 * refused; and with `carried` written: the offset in that input, or VULZHEDOR_NOTHING_CARRIED. Then `equal` keeps what it
 * held.
 */
uint32_t vulzhedor_same_bargains(const uint8_t *first, size_t first_length, const uint8_t *second, size_t second_length,
                                 uint32_t *equal, uint32_t *about, uint64_t *carried);

/*
 * Which of two inputs, a card and a sheet each with nothing behind them, has the better bargain: a pair of length and cost
 * that an assignment of that one has, and no assignment of the other is as good as, that is no longer and no dearer. It is
 * the shortest such pair of either and, of that length, the cheapest.
 *
 * Returns 0 with `better` written: 1 for the first, 2 for the second, with `length` in minutes and `cost` in cents of the
 * pair written; or 0 where both offer the same bargains, and then `length` and `cost` keep what they held. `about` and
 * `carried` keep what they held. Returns the number of a refusal with `about` and `carried` written as
 * vulzhedor_same_bargains writes them, and then the other three keep what they held.
 */
uint32_t vulzhedor_better_bargain(const uint8_t *first, size_t first_length, const uint8_t *second, size_t second_length,
                                  uint32_t *better, uint32_t *length, uint64_t *cost, uint32_t *about, uint64_t *carried);

#ifdef __cplusplus
}
#endif

#endif
