/*
 * Converts texts between UTF-16 and UTF-32 while another thread changes them, which the header forbids. The results are
 * unspecified then, but the functions must return, and report at most the greatest length. `changing [ROUNDS]`.
 */
#include <pthread.h>
#include <stdatomic.h>
#include <stdint.h>
#include <stdio.h>
#include <stdlib.h>
#include <widestring.h>

#define LENGTH 64

static volatile uint16_t units[LENGTH];
static volatile uint32_t scalars[LENGTH];
static atomic_int is_done;

/* Sets elements in the middle to a surrogate and to a character in turn. */
static void *change(void *nothing) {
    for (unsigned turn = 0; !atomic_load_explicit(&is_done, memory_order_relaxed); turn++) {
        units[LENGTH / 2 + turn / 2 % 8] = turn % 2 == 0 ? 0xd800 : 0x61;
        scalars[LENGTH / 2 + turn / 2 % 8] = turn % 2 == 0 ? 0xd800 : 0x1f600;
    }
    return nothing;
}

static void within(size_t result, size_t most) {
    if (result <= most || result == WIDE_FAULT)
        return;
    fprintf(stderr, "a result is longer than the text allows\n");
    exit(1);
}

int main(int count, char **arguments) {
    long rounds = count > 1 ? atol(arguments[1]) : 2000000;
    pthread_t thread;
    for (int at = 0; at < LENGTH; at++)
        units[at] = 0x61, scalars[at] = 0x1f600;
    if (pthread_create(&thread, NULL, change, NULL) != 0) {
        fprintf(stderr, "no thread\n");
        return 1;
    }
    for (long round = 0; round < rounds; round++) {
        uint32_t wide[LENGTH];
        uint16_t narrow[2 * LENGTH];
        within(wide_utf16_to_utf32((const uint16_t *)units, LENGTH, wide, LENGTH), LENGTH);
        within(wide_utf32_to_utf16((const uint32_t *)scalars, LENGTH, narrow, 2 * LENGTH), 2 * LENGTH);
    }
    atomic_store(&is_done, 1);
    pthread_join(thread, NULL);
    printf("%ld rounds of conversions returned while their texts changed\n", rounds);
    return 0;
}
