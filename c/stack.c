/*
 * Measures how much of the stack the three calls take that have working memory on it. usage: stack INPUT..
 *
 * Each call runs in a thread whose stack was filled with one byte before; the deepest byte that differs afterwards tells
 * how far it reached. A thread that makes no call is taken off.
 */
#define _XOPEN_SOURCE 700 /* for pthread_attr_setstack */

#include "vulzhedor.h"

#include <pthread.h>
#include <stdio.h>
#include <stdlib.h>
#include <string.h>

enum { STACK_BYTES = 1 << 20, INPUT_BYTES = 1024, UNUSED = 0xA5 };

/* The card and the sheet of examples/budget.key. */
static const uint8_t batch[] = {3, 10, 0xD8, 4, 20, 0xDC, 11, 60, 0xF0, 46, 2, 2, 100, 60, 1, 60};

static _Alignas(4096) uint8_t stack[STACK_BYTES];
static uint8_t input[INPUT_BYTES];
static size_t input_length;

static void *call_nothing(void *none) {
    return none;
}

static void *call_answer(void *none) {
    static uint8_t text[VULZHEDOR_TEXT_BYTES];
    size_t written;
    (void)vulzhedor_answer(input, input_length, text, sizeof text, &written);
    return none;
}

static void *call_same_bargains(void *none) {
    uint32_t equal;
    uint32_t about;
    uint64_t carried;
    (void)vulzhedor_same_bargains(batch, sizeof batch, batch, sizeof batch, &equal, &about, &carried);
    return none;
}

static void *call_better_bargain(void *none) {
    uint32_t better;
    uint32_t length;
    uint64_t cost;
    uint32_t about;
    uint64_t carried;
    (void)vulzhedor_better_bargain(batch, sizeof batch, batch, sizeof batch, &better, &length, &cost, &about, &carried);
    return none;
}

static void fail(const char *what) {
    fprintf(stderr, "stack: %s\n", what);
    exit(1);
}

/* How many bytes of its stack a thread reached that ran the call. */
static size_t reached(void *(*call)(void *)) {
    pthread_attr_t attributes;
    pthread_t thread;
    memset(stack, UNUSED, STACK_BYTES);
    if (pthread_attr_init(&attributes) != 0 || pthread_attr_setstack(&attributes, stack, STACK_BYTES) != 0 ||
        pthread_create(&thread, &attributes, call, NULL) != 0 || pthread_join(thread, NULL) != 0) {
        fail("no thread");
    }
    size_t unused = 0;
    while (unused < STACK_BYTES && stack[unused] == UNUSED) {
        unused++;
    }
    return STACK_BYTES - unused;
}

static void read_input(const char *name) {
    FILE *file = fopen(name, "rb");
    if (file == NULL) {
        fail(name);
    }
    input_length = fread(input, 1, sizeof input, file);
    fclose(file);
}

int main(int argc, char **argv) {
    size_t nothing = reached(call_nothing);
    size_t most = 0;
    for (int i = 1; i < argc; i++) {
        read_input(argv[i]);
        size_t bytes = reached(call_answer) - nothing;
        most = bytes > most ? bytes : most;
    }
    printf("vulzhedor_answer: %zu bytes of stack\n", most);
    printf("vulzhedor_same_bargains: %zu bytes of stack\n", reached(call_same_bargains) - nothing);
    printf("vulzhedor_better_bargain: %zu bytes of stack\n", reached(call_better_bargain) - nothing);
    return 0;
}
