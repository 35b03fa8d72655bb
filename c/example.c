/* Calls each function of the library once or twice. usage: example INPUT, where INPUT is examples/budget.key. */
#include "vulzhedor.h"

#include <inttypes.h>
#include <stdio.h>

/* The question at the end of examples/budget.key: a budget of 260 cents. */
enum { QUESTION_BYTES = 3 };

/* The card and the sheet of examples/budget.key with the stages exchanged. */
static const uint8_t exchanged[] = {3, 10, 0xD8, 4, 20, 0xDC, 11, 60, 0xF0, 46, 2, 1, 60, 2, 100, 60};

/* Those of examples/two_machines.batch and examples/fast_machine.batch. */
static const uint8_t two_machines[] = {2, 10, 0xD8, 4, 20, 0xDC, 11, 2, 1, 0x90, 3, 1, 0xD8, 4};
static const uint8_t fast_machine[] = {3, 10, 0xD8, 4, 20, 0xDC, 11, 40, 0x90, 28, 2, 1, 0x90, 3, 1, 0xD8, 4};

static void print_quote(uint32_t speed, uint32_t rate, uint32_t work) {
    uint32_t minutes;
    uint64_t cents;
    uint32_t status = vulzhedor_quote(speed, rate, work, &minutes, &cents);
    if (status == VULZHEDOR_DONE) {
        printf("quote: %" PRIu32 " minutes, %" PRIu64 " cents\n", minutes, cents);
    } else if (status == VULZHEDOR_NO_QUOTE) {
        printf("quote: none\n");
    } else {
        printf("quote: refused %" PRIu32 "\n", status);
    }
}

static void print_answer(const uint8_t *input, size_t length) {
    static uint8_t text[VULZHEDOR_TEXT_BYTES];
    size_t written;
    uint32_t status = vulzhedor_answer(input, length, text, sizeof text, &written);
    if (status == VULZHEDOR_DONE) {
        printf("answer:\n%.*s", (int)written, (const char *)text);
    } else {
        printf("answer: refused %" PRIu32 "\n", status);
    }
}

static void print_verdict(const uint8_t *first, size_t first_length, const uint8_t *second, size_t second_length) {
    uint32_t equal;
    uint32_t about;
    uint64_t carried;
    uint32_t status = vulzhedor_same_bargains(first, first_length, second, second_length, &equal, &about, &carried);
    if (status == VULZHEDOR_DONE) {
        printf("same bargains: %s\n", equal ? "yes" : "no");
    } else if (carried == VULZHEDOR_NOTHING_CARRIED) {
        printf("same bargains: refused %" PRIu32 "\n", status);
    } else {
        printf("same bargains: refused %" PRIu32 " at %" PRIu64 " of input %" PRIu32 "\n", status, carried, about);
    }
}

static void print_better(const uint8_t *first, size_t first_length, const uint8_t *second, size_t second_length) {
    uint32_t better;
    uint32_t length;
    uint64_t cost;
    uint32_t about;
    uint64_t carried;
    uint32_t status = vulzhedor_better_bargain(first, first_length, second, second_length, &better, &length, &cost, &about,
                                               &carried);
    if (status != VULZHEDOR_DONE) {
        printf("better bargain: refused %" PRIu32 " for input %" PRIu32 "\n", status, about);
    } else if (better == 0) {
        printf("better bargain: neither\n");
    } else {
        printf("better bargain: input %" PRIu32 ", %" PRIu32 " minutes, %" PRIu64 " cents\n", better, length, cost);
    }
}

int main(int argc, char **argv) {
    uint8_t input[1024];
    FILE *file = argc == 2 ? fopen(argv[1], "rb") : NULL;
    if (file == NULL) {
        fprintf(stderr, "usage: example INPUT\n");
        return 1;
    }
    size_t length = fread(input, 1, sizeof input, file);
    fclose(file);
    if (length < QUESTION_BYTES) {
        fprintf(stderr, "example: %s has no question\n", argv[1]);
        return 1;
    }

    printf("charge: %" PRIu64 " cents\n", vulzhedor_charge(100, 7));
    print_quote(20, 1500, 100);
    print_quote(694, 1500, 1000000);
    print_quote(0, 1500, 100);
    print_answer(input, length);
    print_verdict(input, length - QUESTION_BYTES, exchanged, sizeof exchanged);
    print_verdict(input, length - QUESTION_BYTES, exchanged, sizeof exchanged - 1);
    print_better(two_machines, sizeof two_machines, fast_machine, sizeof fast_machine);
    print_better(two_machines, sizeof two_machines, two_machines, sizeof two_machines);
    print_better(two_machines, sizeof two_machines, fast_machine, sizeof fast_machine - 1);
    return 0;
}
