// Times widestring.hpp against the C functions that it calls, which write into an existing buffer: `bench/bindings`
// builds and runs it. Times are the thread's processor time, the best of many rounds in which both take turns. Each
// line has the time of C, and that of C++ as a multiple of it.
#include <algorithm>
#include <cstdio>
#include <cstdlib>
#include <ctime>
#include <random>
#include <vector>
#include <widestring.hpp>

namespace {

double nanoseconds() {
    timespec time;
    clock_gettime(CLOCK_THREAD_CPUTIME_ID, &time);
    return 1e9 * static_cast<double>(time.tv_sec) + static_cast<double>(time.tv_nsec);
}

void must(bool holds) {
    if (!holds)
        std::abort();
}

// Returns the time of one call in a round of them.
template <class Call> double round_of(int calls, Call call) {
    must(call());
    const double begun = nanoseconds();
    for (int at = 0; at < calls; at++)
        must(call());
    return (nanoseconds() - begun) / calls;
}

template <class InC, class InCpp> void race(const char *call, const char *kind, std::size_t length, InC in_c, InCpp in_cpp) {
    const int calls = static_cast<int>(std::max<std::size_t>(1, 400000 / length));
    double best_c = 1e18, best_cpp = 1e18;
    for (int round = 0; round < 100; round++) {
        best_c = std::min(best_c, round_of(calls, in_c));
        best_cpp = std::min(best_cpp, round_of(calls, in_cpp));
    }
    std::printf("%-16s %-22s %8zu units %10.0f ns %6.2f\n", call, kind, length, best_c, best_cpp / best_c);
}

// Returns words of two to ten letters: of ASCII, or half of them Chinese and the others with a sixth of their letters
// beyond ASCII.
std::u16string made(std::size_t length, bool is_mixed) {
    std::mt19937 numbers(2);
    const auto below = [&](unsigned bound) { return static_cast<unsigned>(numbers()) % bound; };
    std::u16string units;
    bool is_chinese = false;
    for (unsigned left = 0; units.size() < length; left--) {
        const char16_t letter = is_chinese                        ? static_cast<char16_t>(0x4e00 + below(0x5000))
                                : is_mixed && below(6) == 0 ? static_cast<char16_t>(0xe0 + below(0x20))
                                                                  : static_cast<char16_t>(u'a' + below(26));
        units.push_back(left == 0 ? u' ' : letter);
        if (left == 0) {
            left = 3 + below(9);
            is_chinese = is_mixed && below(2) == 0;
        }
    }
    return units;
}

void race_units(const char *kind, const std::u16string &units) {
    const auto *from = reinterpret_cast<const std::uint16_t *>(units.data());
    std::vector<std::uint8_t> buffer(3 * units.size());
    race(
        "to_utf8", kind, units.size(), [&] { return wide_utf16_to_utf8(from, units.size(), buffer.data(), buffer.size()) != WIDE_FAULT; },
        [&] { return widestring::to_utf8(units).has_value(); });
    race(
        "to_utf8_lossy", kind, units.size(),
        [&] { return wide_utf16_to_utf8_lossy(from, units.size(), buffer.data(), buffer.size()) > 0; },
        [&] { return !widestring::to_utf8_lossy(units).empty(); });
}

void race_text(const char *kind, const std::string &text) {
    const auto *from = reinterpret_cast<const std::uint8_t *>(text.data());
    std::vector<std::uint16_t> buffer(text.size());
    race(
        "to_utf16", kind, text.size(), [&] { return wide_utf8_to_utf16(from, text.size(), buffer.data(), buffer.size()) != WIDE_FAULT; },
        [&] { return widestring::to_utf16(text).has_value(); });
    race(
        "to_utf16_lossy", kind, text.size(),
        [&] { return wide_utf8_to_utf16_lossy(from, text.size(), buffer.data(), buffer.size()) > 0; },
        [&] { return !widestring::to_utf16_lossy(text).empty(); });
}

} // namespace

int main() {
    for (const std::size_t length : {20u, 8192u, 524288u}) {
        for (const bool is_mixed : {false, true}) {
            const char *kind = is_mixed ? "European and Chinese" : "ASCII";
            const std::u16string units = made(length, is_mixed);
            race_units(kind, units);
            race_text(kind, widestring::to_utf8(units).value());
        }
    }
}
