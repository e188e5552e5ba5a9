/*
 * Tests every function of the library against decoders and encoders written here: `test COUNT SEED`. COUNT random texts
 * are made for each kind of units and of bytes, well formed or ill-formed. Each text is at the end of readable memory,
 * and each buffer is at the end of writable memory or has marked elements after it. So a function that reads or writes
 * out of bounds stops the program or is reported.
 */
#define _GNU_SOURCE
#include <stdio.h>
#include <stdlib.h>
#include <string.h>
#include <sys/mman.h>
#include <unistd.h>
#include <widestring.h>

#define MOST 2048
#define CAPACITY (4 * MOST)
#define FAULT UINT32_MAX
#define REPLACEMENT 0xfffdu

/* Text as characters, with FAULT for each ill-formed sequence, and the offset at which each begins. */
struct items {
    uint32_t item[MOST];
    size_t offset[MOST + 1];
    size_t count;
};

/* Elements of 1, 2 or 4 bytes: UTF-8, UTF-16 or UTF-32. */
struct text {
    int width;
    size_t length;
    uint32_t element[CAPACITY];
};

/* What a function should return, and leave at the start of a buffer. */
struct wanted {
    size_t result;
    struct text text;
};

static uint64_t state;
static const char *seen_call = "";

/* The byte order and the flag `after_fault` that functions get. */
static uint32_t order, fault_before;

static uint32_t random_below(uint32_t bound) {
    state ^= state << 13;
    state ^= state >> 7;
    state ^= state << 17;
    return (uint32_t)(state >> 33) % bound;
}

static void fail(const char *why) {
    fprintf(stderr, "%s: %s\n", seen_call, why);
    exit(1);
}

/* Returns the end of memory after which nothing may be read or written. */
static unsigned char *edge(void) {
    size_t page = (size_t)sysconf(_SC_PAGESIZE), size = (4 * CAPACITY / page + 1) * page;
    unsigned char *memory = mmap(NULL, size + page, PROT_READ | PROT_WRITE, MAP_PRIVATE | MAP_ANONYMOUS, -1, 0);
    if (memory == MAP_FAILED || mprotect(memory + size, page, PROT_NONE) != 0)
        fail("no memory");
    return memory + size;
}

static void store(void *to, int width, size_t at, uint32_t element) {
    if (width == 1)
        ((uint8_t *)to)[at] = (uint8_t)element;
    else if (width == 2)
        ((uint16_t *)to)[at] = (uint16_t)element;
    else
        ((uint32_t *)to)[at] = element;
}

static uint32_t load(const void *from, int width, size_t at) {
    if (width == 1)
        return ((const uint8_t *)from)[at];
    return width == 2 ? ((const uint16_t *)from)[at] : ((const uint32_t *)from)[at];
}

/* Stores a text directly before the end of memory, and returns its start, or NULL if the text is empty. */
static void *at_edge(unsigned char *end, const struct text *text) {
    unsigned char *memory = end - text->length * (size_t)text->width;
    for (size_t at = 0; at < text->length; at++)
        store(memory, text->width, at, text->element[at]);
    return text->length == 0 ? NULL : memory;
}

static int is_scalar(uint32_t number) {
    return number < 0xd800 || (number > 0xdfff && number < 0x110000);
}

static void put(struct text *text, uint32_t element) {
    text->element[text->length++] = element;
}

static void encode(struct text *text, uint32_t c) {
    if (text->width == 4 || c < 0x80 || (text->width == 2 && c < 0x10000)) {
        put(text, c);
    } else if (text->width == 2) {
        put(text, 0xd800 + ((c - 0x10000) >> 10));
        put(text, 0xdc00 + ((c - 0x10000) & 0x3ff));
    } else {
        int more = c < 0x800 ? 1 : c < 0x10000 ? 2 : 3;
        put(text, (c >> 6 * more) | (more == 1 ? 0xc0 : more == 2 ? 0xe0 : 0xf0));
        while (more-- > 0)
            put(text, 0x80 | (c >> 6 * more & 0x3f));
    }
}

/*
 * Sets the character that begins at a byte of UTF-8, and returns its length in bytes; or, if none begins there, returns
 * minus the length of the maximal subpart.
 */
static int character_at(const struct text *text, size_t at, uint32_t *c) {
    uint32_t first = text->element[at], least = 0x80, greatest = 0xbf;
    int length = first < 0x80 ? 1 : first < 0xc2 ? 0 : first < 0xe0 ? 2 : first < 0xf0 ? 3 : first < 0xf5 ? 4 : 0;
    *c = length == 1 ? first : first & (0x7fu >> length);
    least = first == 0xe0 ? 0xa0 : first == 0xf0 ? 0x90 : least;
    greatest = first == 0xed ? 0x9f : first == 0xf4 ? 0x8f : greatest;
    for (int next = 1; next < length; next++) {
        uint32_t byte = at + (size_t)next < text->length ? text->element[at + (size_t)next] : 0;
        if (byte < least || byte > greatest)
            return -next;
        *c = *c << 6 | (byte & 0x3f);
        least = 0x80, greatest = 0xbf;
    }
    return length == 0 ? -1 : length;
}

static size_t item_at(const struct text *text, size_t at, uint32_t *item) {
    uint32_t unit = text->element[at], next = at + 1 < text->length ? text->element[at + 1] : 0;
    if (text->width == 1) {
        int length = character_at(text, at, item);
        *item = length < 0 ? FAULT : *item;
        return (size_t)abs(length);
    }
    if (text->width == 2 && unit >> 10 == 0x36 && next >> 10 == 0x37) {
        *item = 0x10000 + ((unit & 0x3ff) << 10) + (next & 0x3ff);
        return 2;
    }
    *item = is_scalar(unit) ? unit : FAULT;
    return 1;
}

static void decode(const struct text *text, struct items *items) {
    size_t at = 0;
    for (items->count = 0; at < text->length; items->count++) {
        items->offset[items->count] = at;
        at += item_at(text, at, &items->item[items->count]);
    }
    items->offset[items->count] = at;
}

/* Returns the index of the first fault among the items, or the number of items if there is no fault. */
static size_t fault_of(const struct items *items) {
    size_t at = 0;
    while (at < items->count && items->item[at] != FAULT)
        at++;
    return at;
}

/*
 * Sets what a conversion should return and write: the text of the items in a width, with faults replaced by the policy.
 * Without a policy, which is -1, a fault means an error.
 */
static void convert(const struct items *items, int width, int policy, struct wanted *wanted) {
    wanted->text.width = width;
    wanted->text.length = 0;
    wanted->result = WIDE_FAULT;
    if (policy > 2 || (policy < 0 && fault_of(items) < items->count))
        return;
    for (size_t at = 0; at < items->count; at++) {
        if (items->item[at] != FAULT)
            encode(&wanted->text, items->item[at]);
        else if (policy == WIDE_EACH || (policy == WIDE_RUN && (at == 0 ? !fault_before : items->item[at - 1] != FAULT)))
            encode(&wanted->text, REPLACEMENT);
    }
    wanted->result = wanted->text.length;
}

typedef size_t (*Call)(const void *, size_t, uint32_t, void *, size_t);

#define TO(name, in, out)                                                                                                                 \
    static size_t call_##name(const void *from, size_t length, uint32_t policy, void *buffer, size_t size) {                              \
        (void)policy;                                                                                                                     \
        return wide_##name((const in *)from, length, (out *)buffer, size);                                                                \
    }
#define WITH(name, in, out)                                                                                                               \
    static size_t call_##name(const void *from, size_t length, uint32_t policy, void *buffer, size_t size) {                              \
        return wide_##name((const in *)from, length, policy, (out *)buffer, size);                                                        \
    }
TO(utf16_to_utf8, uint16_t, uint8_t)
TO(utf32_to_utf8, uint32_t, uint8_t)
TO(utf8_to_utf16, uint8_t, uint16_t)
TO(utf8_to_utf32, uint8_t, uint32_t)
TO(utf16_to_utf32, uint16_t, uint32_t)
TO(utf32_to_utf16, uint32_t, uint16_t)
TO(utf16_to_utf8_lossy, uint16_t, uint8_t)
TO(utf32_to_utf8_lossy, uint32_t, uint8_t)
TO(utf8_to_utf16_lossy, uint8_t, uint16_t)
TO(utf8_to_utf32_lossy, uint8_t, uint32_t)
TO(utf16_repair, uint16_t, uint16_t)
TO(utf32_repair, uint32_t, uint32_t)
TO(utf16_to_ascii_lowercase, uint16_t, uint16_t)
TO(utf32_to_ascii_lowercase, uint32_t, uint32_t)
TO(utf16_to_ascii_uppercase, uint16_t, uint16_t)
TO(utf32_to_ascii_uppercase, uint32_t, uint32_t)
TO(utf16_to_utf32_lossy, uint16_t, uint32_t)
TO(utf32_to_utf16_lossy, uint32_t, uint16_t)
TO(utf16_to_wtf8, uint16_t, uint8_t)
TO(wtf8_to_utf16, uint8_t, uint16_t)
TO(utf16_swap_bytes, uint16_t, uint16_t)
TO(utf32_swap_bytes, uint32_t, uint32_t)
WITH(utf16_from_bytes, uint8_t, uint16_t)
WITH(utf32_from_bytes, uint8_t, uint32_t)
WITH(utf16_to_bytes, uint16_t, uint8_t)
WITH(utf32_to_bytes, uint32_t, uint8_t)
WITH(utf16_to_utf32_lossy_with, uint16_t, uint32_t)
WITH(utf32_to_utf16_lossy_with, uint32_t, uint16_t)
WITH(utf16_to_utf8_lossy_with, uint16_t, uint8_t)
WITH(utf32_to_utf8_lossy_with, uint32_t, uint8_t)
WITH(utf8_to_utf16_lossy_with, uint8_t, uint16_t)
WITH(utf8_to_utf32_lossy_with, uint8_t, uint32_t)

static size_t call_utf16_bytes_to_utf8(const void *from, size_t length, uint32_t policy, void *buffer, size_t size) {
    (void)policy;
    return wide_utf16_bytes_to_utf8((const uint8_t *)from, length, order, (uint8_t *)buffer, size);
}
static size_t call_utf16_bytes_to_utf8_lossy_with(const void *from, size_t length, uint32_t policy, void *buffer, size_t size) {
    return wide_utf16_bytes_to_utf8_lossy_with((const uint8_t *)from, length, order, policy, fault_before, (uint8_t *)buffer, size);
}

/* Each conversion, its input and output widths, and the policies to test: none, which is -1, or a range of them. */
static const struct conversion {
    const char *name;
    Call call;
    int from, to, first, last;
} conversions[] = {
    {"wide_utf16_to_utf8", call_utf16_to_utf8, 2, 1, -1, -1},
    {"wide_utf32_to_utf8", call_utf32_to_utf8, 4, 1, -1, -1},
    {"wide_utf8_to_utf16", call_utf8_to_utf16, 1, 2, -1, -1},
    {"wide_utf8_to_utf32", call_utf8_to_utf32, 1, 4, -1, -1},
    {"wide_utf16_to_utf32", call_utf16_to_utf32, 2, 4, -1, -1},
    {"wide_utf32_to_utf16", call_utf32_to_utf16, 4, 2, -1, -1},
    {"wide_utf16_to_utf8_lossy", call_utf16_to_utf8_lossy, 2, 1, WIDE_EACH, WIDE_EACH},
    {"wide_utf32_to_utf8_lossy", call_utf32_to_utf8_lossy, 4, 1, WIDE_EACH, WIDE_EACH},
    {"wide_utf8_to_utf16_lossy", call_utf8_to_utf16_lossy, 1, 2, WIDE_EACH, WIDE_EACH},
    {"wide_utf8_to_utf32_lossy", call_utf8_to_utf32_lossy, 1, 4, WIDE_EACH, WIDE_EACH},
    {"wide_utf16_to_utf32_lossy", call_utf16_to_utf32_lossy, 2, 4, WIDE_EACH, WIDE_EACH},
    {"wide_utf32_to_utf16_lossy", call_utf32_to_utf16_lossy, 4, 2, WIDE_EACH, WIDE_EACH},
    {"wide_utf16_to_utf32_lossy_with", call_utf16_to_utf32_lossy_with, 2, 4, WIDE_EACH, WIDE_SKIP + 1},
    {"wide_utf32_to_utf16_lossy_with", call_utf32_to_utf16_lossy_with, 4, 2, WIDE_EACH, WIDE_SKIP + 1},
    {"wide_utf16_repair", call_utf16_repair, 2, 2, WIDE_EACH, WIDE_EACH},
    {"wide_utf32_repair", call_utf32_repair, 4, 4, WIDE_EACH, WIDE_EACH},
    {"wide_utf16_to_utf8_lossy_with", call_utf16_to_utf8_lossy_with, 2, 1, WIDE_EACH, WIDE_SKIP + 1},
    {"wide_utf32_to_utf8_lossy_with", call_utf32_to_utf8_lossy_with, 4, 1, WIDE_EACH, WIDE_SKIP + 1},
    {"wide_utf8_to_utf16_lossy_with", call_utf8_to_utf16_lossy_with, 1, 2, WIDE_EACH, WIDE_SKIP + 1},
    {"wide_utf8_to_utf32_lossy_with", call_utf8_to_utf32_lossy_with, 1, 4, WIDE_EACH, WIDE_SKIP + 1},
};

/* The functions that write ASCII letters in the other case, those for lower case first. */
static const struct conversion cases[] = {
    {"wide_utf16_to_ascii_lowercase", call_utf16_to_ascii_lowercase, 2, 2, 0, 0},
    {"wide_utf32_to_ascii_lowercase", call_utf32_to_ascii_lowercase, 4, 4, 0, 0},
    {"wide_utf16_to_ascii_uppercase", call_utf16_to_ascii_uppercase, 2, 2, 1, 1},
    {"wide_utf32_to_ascii_uppercase", call_utf32_to_ascii_uppercase, 4, 4, 1, 1},
};

/* Conversions to WTF-8 and back, and those between units and bytes, whose policy is a byte order, by width. */
static const struct conversion to_wtf8 = {"wide_utf16_to_wtf8", call_utf16_to_wtf8, 2, 1, 0, 0};
static const struct conversion from_wtf8 = {"wide_wtf8_to_utf16", call_wtf8_to_utf16, 1, 2, 0, 0};
static const struct conversion swaps[] = {
    {"wide_utf16_swap_bytes", call_utf16_swap_bytes, 2, 2, 0, 0},
    {"wide_utf32_swap_bytes", call_utf32_swap_bytes, 4, 4, 0, 0},
};
static const struct conversion to_bytes[] = {
    {"wide_utf16_to_bytes", call_utf16_to_bytes, 2, 1, WIDE_LITTLE_ENDIAN, WIDE_NO_BOM},
    {"wide_utf32_to_bytes", call_utf32_to_bytes, 4, 1, WIDE_LITTLE_ENDIAN, WIDE_NO_BOM},
};
static const struct conversion from_bytes[] = {
    {"wide_utf16_from_bytes", call_utf16_from_bytes, 1, 2, WIDE_LITTLE_ENDIAN, WIDE_NO_BOM},
    {"wide_utf32_from_bytes", call_utf32_from_bytes, 1, 4, WIDE_LITTLE_ENDIAN, WIDE_NO_BOM},
};

/* The conversions of UTF-16 in bytes. Both read the byte order from `order`, and the lossy one reads `fault_before`. */
static const struct conversion strict_bytes = {"wide_utf16_bytes_to_utf8", call_utf16_bytes_to_utf8, 2, 1, -1, -1};
static const struct conversion lossy_bytes = {"wide_utf16_bytes_to_utf8_lossy_with", call_utf16_bytes_to_utf8_lossy_with, 2, 1, WIDE_EACH, WIDE_SKIP + 1};

/*
 * Calls a function with a buffer of this size. Between the buffer and the end of writable memory are `after` more
 * elements, and the call must not change them.
 */
static void check_buffer(const struct conversion *it, const void *from, size_t length, int policy, const struct wanted *wanted,
                         unsigned char *end, size_t size, size_t after) {
    const uint32_t filler = 0xa5a5a5a5u >> 8 * (4 - it->to);
    unsigned char *buffer = end - (size + after) * (size_t)it->to;
    for (size_t at = 0; at < size + after; at++)
        store(buffer, it->to, at, filler);
    size_t result = it->call(from, length, (uint32_t)policy, size == 0 ? NULL : buffer, size);
    if (result != wanted->result)
        fail("another result");
    size_t written = result == WIDE_FAULT ? 0 : result <= size ? result : size;
    for (size_t at = 0; result <= size && at < written; at++)
        if (load(buffer, it->to, at) != wanted->text.element[at])
            fail("another text");
    for (size_t at = written; at < size + after; at++)
        if (load(buffer, it->to, at) != filler)
            fail("written outside");
}

/* Calls a function with buffers that fit exactly, are longer, shorter and empty. */
static void check_buffers(const struct conversion *it, const void *from, size_t length, int policy, const struct wanted *wanted, unsigned char *end) {
    size_t exact = wanted->text.length;
    seen_call = it->name;
    check_buffer(it, from, length, policy, wanted, end, exact, 0);
    check_buffer(it, from, length, policy, wanted, end, exact, 1 + random_below(70));
    check_buffer(it, from, length, policy, wanted, end, exact + 1 + random_below(70), 0);
    check_buffer(it, from, length, policy, wanted, end, 0, 3);
    if (exact > 0)
        check_buffer(it, from, length, policy, wanted, end, random_below((uint32_t)exact), 70);
}

static void check_conversion(const struct conversion *it, const void *from, size_t length, const struct items *items, unsigned char *end) {
    static struct wanted wanted;
    for (int policy = it->first; policy <= it->last; policy++) {
        convert(items, it->to, policy, &wanted);
        check_buffers(it, from, length, policy, &wanted, end);
    }
}

static void equal(const char *call, size_t result, size_t wanted) {
    seen_call = call;
    if (result != wanted)
        fail("another result");
}

/* Checks the functions that return a length, a count, or the offset or item number of the first fault. */
static void check_counts(const void *from, const struct text *text, const struct items *items) {
    static struct wanted to[3];
    size_t n = text->length, fault = fault_of(items), is_valid = fault == items->count;
    for (int width = 0; width < 3; width++)
        convert(items, 1 << width, -1, &to[width]);
    size_t characters = to[2].result, item = is_valid ? SIZE_MAX : fault, faults = 0, is_ascii = 1;
    for (size_t at = 0; at < items->count; at++)
        faults += items->item[at] == FAULT;
    for (size_t at = 0; at < n; at++)
        is_ascii &= text->element[at] < 0x80;
    if (text->width == 1) {
        equal("wide_utf8_first_fault", wide_utf8_first_fault(from, n), items->offset[fault]);
        equal("wide_utf8_char_count", wide_utf8_char_count(from, n), characters);
        equal("wide_utf8_fault_count", wide_utf8_fault_count(from, n), faults);
        equal("wide_utf8_is_ascii", wide_utf8_is_ascii(from, n), is_ascii);
        equal("wide_utf8_utf16_length", wide_utf8_utf16_length(from, n), to[1].result);
        equal("wide_utf8_utf32_length", wide_utf8_utf32_length(from, n), characters);
    } else if (text->width == 2) {
        equal("wide_utf16_first_fault", wide_utf16_first_fault(from, n), items->offset[fault]);
        equal("wide_utf16_first_fault_item", wide_utf16_first_fault_item(from, n), item);
        equal("wide_utf16_char_count", wide_utf16_char_count(from, n), characters);
        equal("wide_utf16_fault_count", wide_utf16_fault_count(from, n), faults);
        equal("wide_utf16_is_ascii", wide_utf16_is_ascii(from, n), is_ascii);
        equal("wide_utf16_utf8_length", wide_utf16_utf8_length(from, n), to[0].result);
        equal("wide_utf16_utf32_length", wide_utf16_utf32_length(from, n), characters);
    } else {
        equal("wide_utf32_first_fault", wide_utf32_first_fault(from, n), items->offset[fault]);
        equal("wide_utf32_first_fault_item", wide_utf32_first_fault_item(from, n), item);
        equal("wide_utf32_char_count", wide_utf32_char_count(from, n), characters);
        equal("wide_utf32_fault_count", wide_utf32_fault_count(from, n), faults);
        equal("wide_utf32_is_ascii", wide_utf32_is_ascii(from, n), is_ascii);
        equal("wide_utf32_utf8_length", wide_utf32_utf8_length(from, n), to[0].result);
        equal("wide_utf32_utf16_length", wide_utf32_utf16_length(from, n), to[1].result);
    }
}

/* Returns the first offset at which the needle occurs in a text, or SIZE_MAX. */
static size_t offset_of(const struct text *text, const struct text *needle) {
    for (size_t at = 0; at + needle->length <= text->length; at++)
        if (memcmp(&text->element[at], needle->element, needle->length * sizeof needle->element[0]) == 0)
            return at;
    return SIZE_MAX;
}

/* Returns the last offset at which the needle occurs in a text, or SIZE_MAX. */
static size_t last_offset_of(const struct text *text, const struct text *needle) {
    for (size_t at = text->length + 1; at-- > 0;)
        if (at + needle->length <= text->length && memcmp(&text->element[at], needle->element, needle->length * sizeof needle->element[0]) == 0)
            return at;
    return SIZE_MAX;
}

/* Makes a text with each ASCII letter in lower case, or in upper case. */
static void change_case(const struct text *text, int is_upper, struct text *changed) {
    const uint32_t first = is_upper ? 'a' : 'A';
    changed->width = text->width;
    changed->length = text->length;
    for (size_t at = 0; at < text->length; at++) {
        uint32_t element = text->element[at];
        changed->element[at] = element >= first && element < first + 26 ? element ^ 0x20 : element;
    }
}

/* Changes the case of some letters, and in some texts one element. */
static void change_letters(struct text *text) {
    for (size_t at = 0; at < text->length; at++)
        if (random_below(2) == 0 && (text->element[at] | 0x20) >= 'a' && (text->element[at] | 0x20) <= 'z')
            text->element[at] ^= 0x20;
    if (text->length > 0 && random_below(3) == 0)
        text->element[random_below((uint32_t)text->length)] ^= 0x20;
}

/* Makes a needle of a substring of the text; in some of them one unit is changed. */
static void cut_needle(const struct text *text, struct text *needle) {
    size_t first = random_below((uint32_t)text->length + 1), left = text->length - first;
    needle->width = text->width;
    needle->length = random_below(left < 9 ? (uint32_t)left + 1 : 9);
    memcpy(needle->element, &text->element[first], needle->length * sizeof needle->element[0]);
    if (needle->length > 0 && random_below(4) == 0)
        needle->element[random_below((uint32_t)needle->length)] ^= 1;
}

static void check_searches(const void *from, const struct text *text, unsigned char *end) {
    static struct text needle, one;
    size_t n = text->length;
    cut_needle(text, &needle);
    one = (struct text){.width = text->width, .length = 1, .element = {needle.length > 0 ? needle.element[0] : 0x7a}};
    const struct text nul = {.width = text->width, .length = 1, .element = {0}};
    size_t offset = offset_of(text, &one), zero = offset_of(text, &nul);
    const void *needle_units = at_edge(end, &needle);
    if (text->width == 2) {
        equal("wide_utf16_first_nul", wide_utf16_first_nul(from, n), zero < n ? zero : n);
        equal("wide_utf16_find_unit", wide_utf16_find_unit(from, n, (uint16_t)one.element[0]), offset < n ? offset : n);
        equal("wide_utf16_find", wide_utf16_find(from, n, needle_units, needle.length), offset_of(text, &needle));
        equal("wide_utf16_rfind", wide_utf16_rfind(from, n, needle_units, needle.length), last_offset_of(text, &needle));
    } else {
        equal("wide_utf32_first_nul", wide_utf32_first_nul(from, n), zero < n ? zero : n);
        equal("wide_utf32_find_unit", wide_utf32_find_unit(from, n, one.element[0]), offset < n ? offset : n);
        equal("wide_utf32_find", wide_utf32_find(from, n, needle_units, needle.length), offset_of(text, &needle));
        equal("wide_utf32_rfind", wide_utf32_rfind(from, n, needle_units, needle.length), last_offset_of(text, &needle));
    }
}

/* Checks searches and comparisons without regard to case, and the functions that write letters in the other case. */
static void check_cases(const void *from, const struct text *text, unsigned char *ends[3]) {
    static struct text lower, needle, lower_needle, other, lower_other;
    static struct wanted changed;
    size_t n = text->length;
    change_case(text, 0, &lower);
    cut_needle(text, &needle);
    change_letters(&needle);
    change_case(&needle, 0, &lower_needle);
    other = *text;
    change_letters(&other);
    change_case(&other, 0, &lower_other);
    size_t offset = offset_of(&lower, &lower_needle), is_needle = offset == 0 && n == needle.length;
    size_t is_same = memcmp(lower.element, lower_other.element, n * sizeof lower.element[0]) == 0;
    const void *needle_units = at_edge(ends[1], &needle);
    if (text->width == 2) {
        equal("wide_utf16_find_ignore_ascii_case", wide_utf16_find_ignore_ascii_case(from, n, needle_units, needle.length), offset);
        equal("wide_utf16_eq_ignore_ascii_case", wide_utf16_eq_ignore_ascii_case(from, n, needle_units, needle.length), is_needle);
        equal("wide_utf16_eq_ignore_ascii_case", wide_utf16_eq_ignore_ascii_case(from, n, at_edge(ends[1], &other), n), is_same);
    } else {
        equal("wide_utf32_find_ignore_ascii_case", wide_utf32_find_ignore_ascii_case(from, n, needle_units, needle.length), offset);
        equal("wide_utf32_eq_ignore_ascii_case", wide_utf32_eq_ignore_ascii_case(from, n, needle_units, needle.length), is_needle);
        equal("wide_utf32_eq_ignore_ascii_case", wide_utf32_eq_ignore_ascii_case(from, n, at_edge(ends[1], &other), n), is_same);
    }
    for (size_t at = 0; at < sizeof cases / sizeof cases[0]; at++) {
        if (cases[at].from != text->width)
            continue;
        change_case(text, cases[at].first, &changed.text);
        changed.result = n;
        check_buffers(&cases[at], from, n, cases[at].first, &changed, ends[2]);
    }
}

/*
 * Stores UTF-16 as bytes, with or without half a unit after it, directly before the end of memory, and returns their
 * start, or NULL if there are no bytes.
 */
static const uint8_t *bytes_at_edge(unsigned char *end, const struct text *text, size_t half) {
    size_t length = 2 * text->length + half;
    unsigned char *memory = end - length;
    for (size_t at = 0; at < text->length; at++) {
        memory[2 * at + (order == WIDE_BIG_ENDIAN)] = (unsigned char)text->element[at];
        memory[2 * at + (order != WIDE_BIG_ENDIAN)] = (unsigned char)(text->element[at] >> 8);
    }
    if (half > 0)
        memory[length - 1] = 0xd8;
    return length == 0 ? NULL : memory;
}

/* Converts bytes in chunks of random sizes, as the header describes it, and compares the text. */
static void check_stream(const uint8_t *from, size_t length, uint32_t policy, const struct items *items) {
    static struct wanted wanted;
    static uint8_t pending[2 * MOST + 2], text[CAPACITY];
    size_t read = 0, count = 0, written = 0;
    uint32_t after_fault = 0;
    while (read < length) {
        size_t chunk = 1 + random_below(random_below(2) == 0 ? 3 : (uint32_t)(length - read));
        chunk = chunk < length - read ? chunk : length - read;
        memcpy(pending + count, from + read, chunk);
        read += chunk, count += chunk;
        size_t complete = wide_utf16_bytes_complete(pending, count, order);
        written += wide_utf16_bytes_to_utf8_lossy_with(pending, complete, order, policy, after_fault, text + written, CAPACITY - written);
        after_fault = wide_utf16_bytes_end_in_fault(pending, complete, order, after_fault);
        memmove(pending, pending + complete, count - complete);
        count -= complete;
    }
    written += wide_utf16_bytes_to_utf8_lossy_with(pending, count, order, policy, after_fault, text + written, CAPACITY - written);
    convert(items, 1, (int)policy, &wanted);
    equal("a stream in chunks", written, wanted.result);
    for (size_t at = 0; at < written; at++)
        if (text[at] != wanted.text.element[at])
            fail("another text");
}

/* Checks the functions for UTF-16 in bytes, in either order, after a fault or not. */
static void check_bytes(const struct text *text, const struct items *items, unsigned char *ends[3]) {
    uint8_t bom[2] = {(uint8_t)(0xfd + random_below(3)), (uint8_t)(0xfd + random_below(3))};
    uint32_t reported = bom[0] == 0xff && bom[1] == 0xfe ? WIDE_LITTLE_ENDIAN : bom[0] == 0xfe && bom[1] == 0xff ? WIDE_BIG_ENDIAN : WIDE_NO_BOM;
    size_t half = random_below(2), length = 2 * text->length + half;
    size_t high = text->length > 0 && text->element[text->length - 1] >> 10 == 0x36;
    equal("wide_utf16_bytes_order", wide_utf16_bytes_order(bom, 2), reported);
    equal("wide_utf16_bytes_order", wide_utf16_bytes_order(bom, 1), WIDE_NO_BOM);
    for (order = 0; order < 2; order++) {
        const uint8_t *from = bytes_at_edge(ends[0], text, half);
        fault_before = random_below(2) * (1 + random_below(9));
        uint32_t is_last = items->count > 0 ? items->item[items->count - 1] == FAULT : fault_before > 0;
        equal("wide_utf16_bytes_complete", wide_utf16_bytes_complete(from, length, order), length - half - 2 * high);
        equal("wide_utf16_bytes_first_fault", wide_utf16_bytes_first_fault(from, length, order), items->offset[fault_of(items)]);
        equal("wide_utf16_bytes_end_in_fault", wide_utf16_bytes_end_in_fault(from, length, order, fault_before), is_last);
        check_conversion(&lossy_bytes, from, length, items, ends[2]);
        fault_before = 0;
        if (half == 0)
            check_conversion(&strict_bytes, from, length, items, ends[2]);
        else
            equal("wide_utf16_bytes_to_utf8", wide_utf16_bytes_to_utf8(from, length, order, NULL, 0), WIDE_FAULT);
        check_stream(from, length, random_below(3), items);
    }
    /* A reader that continues with WIDE_NO_BOM stays within its buffer. */
    equal("wide_utf16_bytes_complete", wide_utf16_bytes_complete(bom, 2, order), 0);
    equal("wide_utf16_bytes_first_fault", wide_utf16_bytes_first_fault(bom, 2, order), WIDE_FAULT);
    equal("wide_utf16_bytes_end_in_fault", wide_utf16_bytes_end_in_fault(bom, 2, order, 1), 0);
    equal("wide_utf16_bytes_to_utf8", wide_utf16_bytes_to_utf8(bom, 2, order, NULL, 0), WIDE_FAULT);
    equal("wide_utf16_bytes_to_utf8_lossy_with", wide_utf16_bytes_to_utf8_lossy_with(bom, 2, order, WIDE_EACH, 0, NULL, 0), WIDE_FAULT);
}

/* Returns a random character: mostly ASCII, and of each length in UTF-8. */
static uint32_t random_character(uint32_t kinds) {
    static const uint32_t first[] = {0x20, 0x20, 0, 0x80, 0x800, 0xe000, 0x10000};
    static const uint32_t end[] = {0x7f, 0x7f, 0x80, 0x800, 0xd800, 0x10000, 0x110000};
    uint32_t kind = random_below(kinds);
    return first[kind] + random_below(end[kind] - first[kind]);
}

/* Returns a random element of any value, also one that no well-formed text has. */
static uint32_t random_element(int width) {
    if (width == 1)
        return random_below(2) == 0 ? 0x80 + random_below(0x80) : random_below(0x100);
    if (random_below(2) == 0)
        return 0xd800 + random_below(0x800);
    return width == 2 ? random_below(0x10000) : random_below(2) == 0 ? 0x110000 + random_below(0x10000) : random_below(0x7fffffff) * 2 + 1;
}

/* Returns the order of two texts by their items, where a fault counts by its unit. */
static int order_of(const struct text *text, const struct items *items, const struct text *other, const struct items *other_items) {
    for (size_t at = 0; at < items->count && at < other_items->count; at++) {
        uint32_t left = items->item[at] != FAULT ? items->item[at] : text->element[items->offset[at]];
        uint32_t right = other_items->item[at] != FAULT ? other_items->item[at] : other->element[other_items->offset[at]];
        if (left != right)
            return left < right ? -1 : 1;
    }
    return items->count == other_items->count ? 0 : items->count < other_items->count ? -1 : 1;
}

/* Checks comparisons with a text that differs from some element on, or does not. */
static void check_order(const void *from, const struct text *text, const struct items *items, unsigned char *end) {
    static struct text other;
    static struct items other_items;
    other = *text;
    if (other.length > 0 && random_below(4) > 0) {
        size_t at = random_below((uint32_t)other.length);
        other.element[at] = random_below(2) == 0 ? random_element(text->width) : other.element[at] ^ 1;
    }
    if (random_below(4) == 0)
        other.length = random_below((uint32_t)other.length + 1);
    decode(&other, &other_items);
    const void *units = at_edge(end, &other);
    size_t n = text->length, wanted = (size_t)order_of(text, items, &other, &other_items);
    if (text->width == 2)
        equal("wide_utf16_compare_code_points", (size_t)wide_utf16_compare_code_points(from, n, units, other.length), wanted);
    else
        equal("wide_utf32_compare_code_points", (size_t)wide_utf32_compare_code_points(from, n, units, other.length), wanted);
}

static void make_text(struct text *text, int width) {
    size_t most = random_below(64) == 0 ? MOST - 4 : random_below(16) == 0 ? 508 : random_below(8) == 0 ? 80 : 20;
    size_t length = random_below((uint32_t)most);
    uint32_t kinds = 1 + random_below(7), faults = random_below(2) == 0 ? 0 : 1 + random_below(40);
    text->width = width;
    text->length = 0;
    while (text->length < length) {
        if (faults > 0 && random_below(40) < faults)
            put(text, random_element(width));
        else
            encode(text, random_character(kinds));
    }
    if (faults > 0 && text->length > 0 && random_below(4) == 0)
        text->length--;
}

/* Checks the greatest offset that splits no item, before a random offset. */
static void check_boundary(const void *from, const struct text *text, const struct items *items) {
    size_t most = random_below((uint32_t)text->length + 3), wanted = 0;
    for (size_t at = 0; at <= items->count; at++)
        if (items->offset[at] <= most)
            wanted = items->offset[at];
    equal("wide_utf16_floor_char_boundary", wide_utf16_floor_char_boundary(from, text->length, most), wanted);
}

/* Checks the repair of units where they are. */
static void check_repair(const struct text *text, const struct items *items, unsigned char *end) {
    static struct wanted wanted;
    size_t faults = 0;
    for (size_t at = 0; at < items->count; at++)
        faults += items->item[at] == FAULT;
    convert(items, text->width, WIDE_EACH, &wanted);
    void *units = at_edge(end, text);
    if (text->width == 2)
        equal("wide_utf16_repair_in_place", wide_utf16_repair_in_place(units, text->length), faults);
    else
        equal("wide_utf32_repair_in_place", wide_utf32_repair_in_place(units, text->length), faults);
    for (size_t at = 0; at < text->length; at++)
        if (load(units, text->width, at) != wanted.text.element[at])
            fail("another text");
}

static size_t call_part(int from, int to, const void *text, size_t length, void *buffer, size_t size, size_t *read) {
    if (from == 1)
        return to == 2 ? wide_utf8_to_utf16_part(text, length, buffer, size, read) : wide_utf8_to_utf32_part(text, length, buffer, size, read);
    if (from == 2)
        return to == 1 ? wide_utf16_to_utf8_part(text, length, buffer, size, read) : wide_utf16_to_utf32_part(text, length, buffer, size, read);
    return to == 1 ? wide_utf32_to_utf8_part(text, length, buffer, size, read) : wide_utf32_to_utf16_part(text, length, buffer, size, read);
}

/* Checks conversions of as much of a text as fits into a buffer, which ends where memory ends or has elements after it. */
static void check_part(int to, const void *from, const struct text *text, const struct items *items, unsigned char *end) {
    static struct text wanted, one;
    const uint32_t filler = 0xa5a5a5a5u >> 8 * (4 - to);
    size_t size = random_below(4 * (uint32_t)text->length + 5), after = random_below(2) * 70, at = 0, read = SIZE_MAX;
    unsigned char *buffer = end - (size + after) * (size_t)to;
    for (size_t k = 0; k < size + after; k++)
        store(buffer, to, k, filler);
    wanted.width = one.width = to;
    wanted.length = 0;
    for (; at < items->count && items->item[at] != FAULT; at++) {
        one.length = 0;
        encode(&one, items->item[at]);
        if (wanted.length + one.length > size)
            break;
        encode(&wanted, items->item[at]);
    }
    size_t written = call_part(text->width, to, from, text->length, size == 0 ? NULL : buffer, size, &read);
    equal("a conversion of a part", written, wanted.length);
    equal("a conversion of a part", read, items->offset[at]);
    for (size_t k = 0; k < size + after; k++)
        if (load(buffer, to, k) != (k < written ? wanted.element[k] : filler))
            fail(k < written ? "another text" : "written outside");
}

/* Appends the bytes of a text in an order. */
static void put_bytes(struct text *bytes, const struct text *text, uint32_t to_order) {
    for (size_t at = 0; at < text->length; at++)
        for (int byte = 0; byte < text->width; byte++)
            put(bytes, text->element[at] >> 8 * (to_order == WIDE_LITTLE_ENDIAN ? byte : text->width - 1 - byte) & 0xff);
}

/* Checks units as bytes, bytes as units, and units whose bytes are swapped. */
static void check_unit_bytes(const void *from, const struct text *text, unsigned char *ends[3]) {
    static struct wanted bytes, units, swapped;
    int wide = text->width == 4;
    for (uint32_t to_order = WIDE_LITTLE_ENDIAN; to_order <= WIDE_NO_BOM; to_order++) {
        bytes.text.width = 1;
        bytes.text.length = 0;
        if (to_order != WIDE_NO_BOM)
            put_bytes(&bytes.text, text, to_order);
        bytes.result = to_order == WIDE_NO_BOM ? WIDE_FAULT : bytes.text.length;
        check_buffers(&to_bytes[wide], from, text->length, (int)to_order, &bytes, ends[2]);
        size_t cut = random_below(2) == 0 ? 0 : random_below((uint32_t)text->width);
        bytes.text.length -= bytes.text.length < cut ? 0 : cut;
        units.text = *text;
        units.text.length = 0;
        units.result = WIDE_FAULT;
        if (to_order != WIDE_NO_BOM && bytes.text.length % (size_t)text->width == 0) {
            units.text.length = bytes.text.length / (size_t)text->width;
            units.result = units.text.length;
        }
        check_buffers(&from_bytes[wide], at_edge(ends[1], &bytes.text), bytes.text.length, (int)to_order, &units, ends[2]);
    }
    swapped.text.width = text->width;
    swapped.text.length = swapped.result = text->length;
    for (size_t at = 0; at < text->length; at++) {
        uint32_t unit = text->element[at];
        swapped.text.element[at] = wide ? unit << 24 | (unit << 8 & 0xff0000) | (unit >> 8 & 0xff00) | unit >> 24 : (unit << 8 & 0xff00) | unit >> 8;
    }
    check_buffers(&swaps[wide], from, text->length, 0, &swapped, ends[2]);
}

/* Checks units of UTF-16 as WTF-8, in which an unpaired surrogate has the three bytes of its number. */
static void check_wtf8(const void *from, const struct text *text, const struct items *items, unsigned char *ends[3]) {
    static struct wanted bytes, units;
    bytes.text.width = 1;
    bytes.text.length = 0;
    for (size_t at = 0; at < items->count; at++)
        encode(&bytes.text, items->item[at] == FAULT ? text->element[items->offset[at]] : items->item[at]);
    bytes.result = bytes.text.length;
    equal("wide_utf16_wtf8_length", wide_utf16_wtf8_length(from, text->length), bytes.result);
    check_buffers(&to_wtf8, from, text->length, 0, &bytes, ends[2]);
    units.text = *text;
    units.result = text->length;
    const void *wtf8 = at_edge(ends[1], &bytes.text);
    equal("wide_wtf8_utf16_length", wide_wtf8_utf16_length(wtf8, bytes.result), units.result);
    equal("wide_wtf8_first_fault", wide_wtf8_first_fault(wtf8, bytes.result), bytes.result);
    check_buffers(&from_wtf8, wtf8, bytes.result, 0, &units, ends[2]);
}

/*
 * Checks the first fault of bytes as WTF-8. Surrogates are characters there, so it is that of UTF-8 unless that is one of
 * theirs.
 */
static void check_wtf8_faults(const void *from, const struct text *text, const struct items *items) {
    size_t fault = fault_of(items), offset = items->offset[fault];
    if (fault == items->count || text->element[offset] != 0xed)
        equal("wide_wtf8_first_fault", wide_wtf8_first_fault(from, text->length), offset);
    size_t units = wide_wtf8_utf16_length(from, text->length);
    if ((units == WIDE_FAULT) != (wide_wtf8_first_fault(from, text->length) < text->length))
        fail("a fault and no fault");
}

/* The schemes of a width in each byte order. */
static uint32_t scheme_of(int width, uint32_t its_order) {
    return width == 1 ? WIDE_UTF8 : (width == 2 ? WIDE_UTF16LE : WIDE_UTF32LE) + its_order;
}

/* Returns how many items end at or before an offset in bytes, and sets `*faults` to how many of these are faults. */
static size_t items_before(const struct items *items, size_t width, uint64_t offset, size_t *faults) {
    size_t at = 0;
    for (*faults = 0; at < items->count && items->offset[at + 1] * width <= offset; at++)
        *faults += items->item[at] == FAULT;
    return at;
}

/*
 * Converts a text between encoding schemes in random pieces, into random space, and compares what is written, the faults
 * at which it stops, and its position, with what the whole text becomes.
 */
static void check_converter(int to, const struct text *text, const struct items *items, unsigned char *ends[3]) {
    static struct text bytes, wanted_bytes, got;
    static struct wanted wanted;
    uint32_t in = random_below(2), out = random_below(2), policy = random_below(4), bom = random_below(2);
    WideConverter converter;
    bytes.width = wanted_bytes.width = got.width = 1;
    bytes.length = wanted_bytes.length = got.length = 0;
    put_bytes(&bytes, text, in);
    convert(items, to, policy == WIDE_STRICT ? WIDE_SKIP : (int)policy, &wanted);
    if (bom) {
        struct text mark = {to, 1, {0xfeff}};
        if (to == 1)
            mark = (struct text){to, 3, {0xef, 0xbb, 0xbf}};
        put_bytes(&wanted_bytes, &mark, out);
    }
    put_bytes(&wanted_bytes, &wanted.text, out);
    const uint8_t *from = at_edge(ends[0], &bytes);
    equal("wide_convert_start", wide_convert_start(&converter, scheme_of(text->width, in), scheme_of(to, out), policy, bom), 1);
    for (size_t read = 0, faults = 0, more = 0;;) {
        size_t length = random_below(4) == 0 ? bytes.length - read : random_below((uint32_t)(bytes.length - read) + 1);
        size_t size = random_below(4) == 0 ? 8 : random_below(400);
        uint32_t is_last = length == bytes.length - read && (more = random_below(2));
        uint8_t *space = (uint8_t *)ends[2] - size;
        size_t written = wide_convert_push(&converter, length == 0 ? NULL : from + read, length, is_last, space, size);
        seen_call = "wide_convert_push";
        if (written > size || converter.read > length || got.length + written > wanted_bytes.length)
            fail("too much");
        for (size_t at = 0; at < written; at++)
            put(&got, space[at]);
        read += converter.read;
        size_t seen, count = items_before(items, (size_t)text->width, converter.bytes, &seen);
        if (converter.bytes + converter.kept != read || converter.items != count || converter.faults != seen)
            fail("another position");
        if (converter.end == WIDE_AT_FAULT) {
            while (faults < items->count && items->item[faults] != FAULT)
                faults++;
            if (policy != WIDE_STRICT || converter.fault_item != faults || converter.fault_offset != items->offset[faults] * (size_t)text->width ||
                converter.fault_unit != text->element[items->offset[faults]])
                fail("another fault");
            faults++;
        }
        if (converter.end == WIDE_NO_SPACE && size - written >= 8)
            fail("there is space");
        if (converter.end == WIDE_NEEDS_INPUT && is_last)
            break;
    }
    equal("wide_convert_push", got.length, wanted_bytes.length);
    for (size_t at = 0; at < got.length; at++)
        if (got.element[at] != wanted_bytes.element[at])
            fail("another text");
    WideConverter other = converter;
    other.to = 8;
    equal("wide_convert_push", wide_convert_push(&other, from, 0, 1, NULL, 0), WIDE_FAULT);
    equal("wide_convert_start", wide_convert_start(&other, 8, 0, 0, 0), 0);
}

static void check_text(int width, unsigned char *ends[3]) {
    static struct text text;
    static struct items items;
    make_text(&text, width);
    decode(&text, &items);
    const void *from = at_edge(ends[0], &text);
    check_counts(from, &text, &items);
    if (width > 1) {
        check_searches(from, &text, ends[1]);
        check_cases(from, &text, ends);
        check_order(from, &text, &items, ends[1]);
    }
    for (size_t at = 0; at < sizeof conversions / sizeof conversions[0]; at++)
        if (conversions[at].from == width)
            check_conversion(&conversions[at], from, text.length, &items, ends[2]);
    for (int to = 1; to <= 4; to *= 2) {
        if (to != width)
            check_part(to, from, &text, &items, ends[2]);
        check_converter(to, &text, &items, ends);
        at_edge(ends[0], &text);
    }
    if (width == 1)
        check_wtf8_faults(from, &text, &items);
    else {
        check_unit_bytes(from, &text, ends);
        check_repair(&text, &items, ends[1]);
    }
    if (width == 2) {
        check_boundary(from, &text, &items);
        check_wtf8(from, &text, &items, ends);
        check_bytes(&text, &items, ends);
    }
}

int main(int count, char **arguments) {
    long texts = count > 1 ? atol(arguments[1]) : 100000;
    long seed = count > 2 ? atol(arguments[2]) : 1;
    state = 0x9e3779b97f4a7c15u * (uint64_t)(2 * seed + 1);
    unsigned char *ends[3] = {edge(), edge(), edge()};
    equal("wide_version", wide_version(), WIDESTRING_VERSION_NUMBER);
    for (long at = 0; at < texts; at++)
        for (int width = 1; width <= 4; width *= 2)
            check_text(width, ends);
    printf("seed %ld: every call agrees on %ld texts of each width\n", seed, texts);
    return 0;
}
