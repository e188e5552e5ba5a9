// Times the library for C beside simdutf, which node has and exports. `bench/simdutf` builds this as a module of node's,
// which loads it, and explains what it prints.
#include <algorithm>
#include <cstdint>
#include <cstdio>
#include <cstdlib>
#include <ctime>
#include <functional>
#include <string>
#include <vector>

#include "widestring.h"

namespace simdutf {
std::size_t convert_utf16le_to_utf8(const char16_t *, std::size_t, char *);
std::size_t convert_utf16le_to_utf32(const char16_t *, std::size_t, char32_t *);
std::size_t convert_utf32_to_utf8(const char32_t *, std::size_t, char *);
std::size_t convert_utf32_to_utf16le(const char32_t *, std::size_t, char16_t *);
std::size_t convert_utf8_to_utf16le(const char *, std::size_t, char16_t *);
std::size_t convert_utf8_to_utf32(const char *, std::size_t, char32_t *);
std::size_t utf8_length_from_utf16le(const char16_t *, std::size_t);
std::size_t utf16_length_from_utf8(const char *, std::size_t);
std::size_t count_utf8(const char *, std::size_t);
std::size_t count_utf16le(const char16_t *, std::size_t);
bool validate_utf8(const char *, std::size_t);
bool validate_utf16le(const char16_t *, std::size_t);
bool validate_utf32(const char32_t *, std::size_t);
}  // namespace simdutf

namespace {

using Call = std::function<std::size_t()>;

// So many bytes are read between two looks at the clock.
constexpr std::size_t bytes_in_turn = 1 << 19;
constexpr int turns = 25;

// Numbers that are the same in each run (xorshift64).
class Numbers {
public:
    std::uint32_t below(std::uint32_t end) {
        state ^= state << 13;
        state ^= state >> 7;
        state ^= state << 17;
        return static_cast<std::uint32_t>(state >> 32) % end;
    }

private:
    std::uint64_t state = 0x2545f4914f6cdd1d;
};

// A script: so many letters from one on, and others in their place in so many of a hundred.
struct Script {
    const char *name;
    char32_t first;
    std::uint32_t letters;
    int others_in_hundred;
    char32_t first_other;
    std::uint32_t others;
    bool has_spaces;
};

constexpr Script scripts[] = {
    {"English", 'a', 26, 0, 'a', 26, true},          {"French", 'a', 26, 7, 0xe0, 28, true},
    {"Russian", 0x430, 32, 0, 'a', 26, true},        {"Chinese", 0x4e00, 8000, 0, 'a', 26, false},
    {"Japanese", 0x3041, 80, 33, 0x4e00, 4000, false}, {"emoji", 0x1f600, 80, 0, 'a', 26, true},
    {"mixed", 'a', 26, 50, 0x1f600, 80, true},
};

void put(std::u16string &text, char32_t character) {
    if (character < 0x10000) {
        text += static_cast<char16_t>(character);
        return;
    }
    text += static_cast<char16_t>(0xd7c0 + (character >> 10));
    text += static_cast<char16_t>(0xdc00 + (character & 0x3ff));
}

// Words of one to nine letters, up to so many units.
std::u16string text_of(const Script &script, std::size_t length) {
    Numbers numbers;
    std::u16string text;
    text.reserve(length + 2);
    while (text.size() < length) {
        for (std::uint32_t left = 1 + numbers.below(9); left > 0; left--) {
            bool is_other = static_cast<int>(numbers.below(100)) < script.others_in_hundred;
            char32_t letter = is_other ? script.first_other + numbers.below(script.others) : script.first + numbers.below(script.letters);
            put(text, letter);
        }
        put(text, !script.has_spaces ? U'\u3002' : numbers.below(20) > 0 ? U' ' : U'\n');
    }
    // A pair is not cut.
    while (text.size() > length) {
        text.pop_back();
    }
    if (!text.empty() && (text.back() & 0xfc00) == 0xd800) {
        text.back() = u' ';
    }
    return text;
}

double seconds() {
    std::timespec time;
    clock_gettime(CLOCK_THREAD_CPUTIME_ID, &time);
    return static_cast<double>(time.tv_sec) + static_cast<double>(time.tv_nsec) * 1e-9;
}

std::size_t volatile result;

// The least time of a call of each, which take turns.
void race(const char *what, const Script &script, std::size_t units, std::size_t bytes, const Call &ours, const Call &theirs) {
    if (ours() != theirs()) {
        std::fprintf(stderr, "bench/simdutf: %s of %s, %zu units: the results differ\n", what, script.name, units);
        std::exit(1);
    }
    const Call *calls[] = {&ours, &theirs};
    double best[] = {1e9, 1e9};
    std::size_t count = std::max<std::size_t>(1, bytes_in_turn / std::max<std::size_t>(bytes, 1));
    for (int turn = 0; turn < (bytes > bytes_in_turn ? 5 : turns); turn++) {
        for (int each = 0; each < 2; each++) {
            result = (*calls[each])();
            double begun = seconds();
            for (std::size_t left = count; left > 0; left--) {
                result = (*calls[each])();
            }
            best[each] = std::min(best[each], (seconds() - begun) / static_cast<double>(count));
        }
    }
    double size = static_cast<double>(bytes) * 1e-9;
    std::printf("%-24s %-9s %9zu %7.2f %7.2f %6.2f\n", what, script.name, units, size / best[0], size / best[1], best[0] / best[1]);
}

// A text in each form, and space for its conversions.
struct Forms {
    explicit Forms(const std::u16string &text) : utf16(text.begin(), text.end()) {
        utf8.resize(wide_utf16_to_utf8(utf16.data(), utf16.size(), nullptr, 0));
        wide_utf16_to_utf8(utf16.data(), utf16.size(), utf8.data(), utf8.size());
        utf32.resize(wide_utf16_to_utf32(utf16.data(), utf16.size(), nullptr, 0));
        wide_utf16_to_utf32(utf16.data(), utf16.size(), utf32.data(), utf32.size());
        to8.resize(4 * utf16.size() + 64);
        to16.resize(utf8.size() + 64);
        to32.resize(utf8.size() + 64);
    }

    const char *text8() const { return reinterpret_cast<const char *>(utf8.data()); }
    const char16_t *text16() const { return reinterpret_cast<const char16_t *>(utf16.data()); }
    const char32_t *text32() const { return reinterpret_cast<const char32_t *>(utf32.data()); }
    char *out8() { return reinterpret_cast<char *>(to8.data()); }
    char16_t *out16() { return reinterpret_cast<char16_t *>(to16.data()); }
    char32_t *out32() { return reinterpret_cast<char32_t *>(to32.data()); }

    std::vector<std::uint8_t> utf8, to8;
    std::vector<std::uint16_t> utf16, to16;
    std::vector<std::uint32_t> utf32, to32;
};

void race_conversions(const Script &script, Forms &it) {
    std::size_t n8 = it.utf8.size(), n16 = it.utf16.size(), n32 = it.utf32.size();
    auto one = [&](const char *what, std::size_t bytes, const Call &ours, const Call &theirs) { race(what, script, n16, bytes, ours, theirs); };
    one("UTF-16 to UTF-8", 2 * n16, [&] { return wide_utf16_to_utf8(it.utf16.data(), n16, it.to8.data(), it.to8.size()); },
        [&] { return simdutf::convert_utf16le_to_utf8(it.text16(), n16, it.out8()); });
    // Here the peer counts first, as its callers do.
    one("the same, in exact space", 2 * n16, [&] { return wide_utf16_to_utf8(it.utf16.data(), n16, it.to8.data(), n8); },
        [&] { return simdutf::utf8_length_from_utf16le(it.text16(), n16) == n8 ? simdutf::convert_utf16le_to_utf8(it.text16(), n16, it.out8()) : 0; });
    one("UTF-16 to UTF-32", 2 * n16, [&] { return wide_utf16_to_utf32(it.utf16.data(), n16, it.to32.data(), it.to32.size()); },
        [&] { return simdutf::convert_utf16le_to_utf32(it.text16(), n16, it.out32()); });
    one("UTF-8 to UTF-16", n8, [&] { return wide_utf8_to_utf16(it.utf8.data(), n8, it.to16.data(), it.to16.size()); },
        [&] { return simdutf::convert_utf8_to_utf16le(it.text8(), n8, it.out16()); });
    one("UTF-8 to UTF-32", n8, [&] { return wide_utf8_to_utf32(it.utf8.data(), n8, it.to32.data(), it.to32.size()); },
        [&] { return simdutf::convert_utf8_to_utf32(it.text8(), n8, it.out32()); });
    one("UTF-32 to UTF-8", 4 * n32, [&] { return wide_utf32_to_utf8(it.utf32.data(), n32, it.to8.data(), it.to8.size()); },
        [&] { return simdutf::convert_utf32_to_utf8(it.text32(), n32, it.out8()); });
    one("UTF-32 to UTF-16", 4 * n32, [&] { return wide_utf32_to_utf16(it.utf32.data(), n32, it.to16.data(), it.to16.size()); },
        [&] { return simdutf::convert_utf32_to_utf16le(it.text32(), n32, it.out16()); });
}

// A length and a count are of well-formed text, so the peer validates first.
void race_checks(const Script &script, Forms &it) {
    std::size_t n8 = it.utf8.size(), n16 = it.utf16.size(), n32 = it.utf32.size();
    auto one = [&](const char *what, std::size_t bytes, const Call &ours, const Call &theirs) { race(what, script, n16, bytes, ours, theirs); };
    auto is_valid8 = [&] { return simdutf::validate_utf8(it.text8(), n8); };
    auto is_valid16 = [&] { return simdutf::validate_utf16le(it.text16(), n16); };
    one("validation of UTF-8", n8, [&] { return std::size_t{wide_utf8_first_fault(it.utf8.data(), n8) == n8}; }, [&] { return std::size_t{is_valid8()}; });
    one("validation of UTF-16", 2 * n16, [&] { return std::size_t{wide_utf16_first_fault(it.utf16.data(), n16) == n16}; }, [&] { return std::size_t{is_valid16()}; });
    one("validation of UTF-32", 4 * n32, [&] { return std::size_t{wide_utf32_first_fault(it.utf32.data(), n32) == n32}; },
        [&] { return std::size_t{simdutf::validate_utf32(it.text32(), n32)}; });
    one("length of UTF-16 in UTF-8", 2 * n16, [&] { return wide_utf16_utf8_length(it.utf16.data(), n16); },
        [&] { return is_valid16() ? simdutf::utf8_length_from_utf16le(it.text16(), n16) : 0; });
    one("length of UTF-8 in UTF-16", n8, [&] { return wide_utf8_utf16_length(it.utf8.data(), n8); },
        [&] { return is_valid8() ? simdutf::utf16_length_from_utf8(it.text8(), n8) : 0; });
    one("characters of UTF-8", n8, [&] { return wide_utf8_char_count(it.utf8.data(), n8); }, [&] { return is_valid8() ? simdutf::count_utf8(it.text8(), n8) : 0; });
    one("characters of UTF-16", 2 * n16, [&] { return wide_utf16_char_count(it.utf16.data(), n16); },
        [&] { return is_valid16() ? simdutf::count_utf16le(it.text16(), n16) : 0; });
}

void run(std::size_t units) {
    for (const Script &script : scripts) {
        Forms forms(text_of(script, units));
        race_conversions(script, forms);
        race_checks(script, forms);
    }
}

}  // namespace

// What node calls once it has loaded a module. UNITS has lengths in units, separated by spaces.
extern "C" __attribute__((visibility("default"))) void *napi_register_module_v1(void *, void *exports) {
    const char *lengths = std::getenv("UNITS");
    char *rest = nullptr;
    for (std::size_t units = std::strtoull(lengths, &rest, 10); units > 0; units = std::strtoull(rest, &rest, 10)) {
        run(units);
    }
    std::fflush(stdout);
    return exports;
}
