#include <stdio.h>
#include <widestring.h>

int main(void) {
    const uint16_t units[] = {'H', 'i', 0xd83d, 0xde00, 0xdc00, 0xdc00}; /* `Hi`, an emoji, and two halves of pairs. */
    uint8_t text[64];
    printf("a fault at unit %zu\n", wide_utf16_first_fault(units, 6));
    for (uint32_t policy = WIDE_EACH; policy <= WIDE_SKIP; policy++)
        printf("%.*s\n", (int)wide_utf16_to_utf8_lossy_with(units, 6, policy, text, sizeof text), (const char *)text);
}
