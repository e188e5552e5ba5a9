/*
 * Reads units of UTF-16 in hexadecimal from the command line, prints the first fault, and prints the repaired text as
 * UTF-8.
 */
#include "widestring.h"
#include <stdio.h>
#include <stdlib.h>

#define MOST 64

/* Prints well-formed UTF-16 as UTF-8, through a buffer of exactly the needed size. */
static int print_text(const uint16_t *units, size_t length) {
    size_t needed = wide_utf16_to_utf8(units, length, NULL, 0);
    if (needed == WIDE_FAULT)
        return EXIT_FAILURE;
    uint8_t *text = malloc(needed + 1);
    if (text == NULL)
        return EXIT_FAILURE;
    wide_utf16_to_utf8(units, length, text, needed);
    uint16_t back[MOST] = {0};
    size_t again = wide_utf8_to_utf16(text, needed, back, MOST);
    printf("%.*s: %zu bytes, %zu units again\n", (int)needed, (const char *)text, needed, again);
    free(text);
    return EXIT_SUCCESS;
}

int main(int count, char **words) {
    uint16_t units[MOST] = {0}, repaired[MOST] = {0};
    size_t length = 0;
    for (int word = 1; word < count && length < MOST; word++)
        units[length++] = (uint16_t)strtoul(words[word], NULL, 16);
    size_t nul = wide_utf16_first_nul(units, length);
    if (nul < length)
        printf("cut at the NUL at unit %zu\n", nul);
    size_t fault = wide_utf16_first_fault(units, nul);
    if (fault < nul)
        printf("fault %04X at unit %zu\n", (unsigned)units[fault], fault);
    wide_utf16_repair(units, nul, repaired, MOST);
    return print_text(repaired, nul);
}
