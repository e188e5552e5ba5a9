/*
 * The library for C++17 and later: UTF-8, UTF-16 and UTF-32. Arguments are string views, strings and spans, results are
 * strings of the standard library. It calls the functions of widestring.h, which are proved for all units, well formed
 * or ill-formed.
 *
 * Functions that return no string neither throw nor allocate. Functions that return a string allocate once or twice, or
 * as a growing string does if the standard library cannot write to a string without filling it first. If the allocation
 * fails, they throw what the string throws. With WIDESTRING_STD_ONLY the header uses only the standard members of
 * strings.
 *
 * Offsets and lengths are counted in elements: code units, or bytes of UTF-8. Strict functions return std::nullopt for
 * ill-formed text.
 */
#ifndef WIDESTRING_HPP
#define WIDESTRING_HPP

#if __cplusplus < 201703L
#error "widestring.hpp needs C++17 or later"
#else

#include <widestring.h>

#include <cstddef>
#include <cstdint>
#include <cstring>
#include <optional>
#include <string>
#include <string_view>
#include <type_traits>
#include <utility>

#if defined(__has_include) && __cplusplus >= 202002L
#if __has_include(<span>)
#include <span>
#endif
#endif

namespace widestring {

static_assert(sizeof(wchar_t) == 4, "wchar_t is a unit of UTF-32 on the machines that the library is built for");

/*
 * Policies of lossy conversions: what is written for ill-formed sequences. `each` writes U+FFFD for each one, `run`
 * writes one U+FFFD for each longest run of adjacent ones, `skip` writes nothing. With any other number a function
 * throws std::bad_optional_access.
 */
enum class Lossy : std::uint32_t { each = WIDE_EACH, run = WIDE_RUN, skip = WIDE_SKIP };

/*
 * Which of the two bytes of a unit of UTF-16 comes first. Functions that return an offset or a length must not get
 * another number.
 */
enum class Order : std::uint32_t { little = WIDE_LITTLE_ENDIAN, big = WIDE_BIG_ENDIAN };

/*
 * Encoding schemes: how a text is stored as bytes. `utf16` and `utf32` are read in the order of their BOM, or
 * little-endian without one, and written little-endian. In the others a BOM is the character U+FEFF. WTF-8 is UTF-8 in
 * which a surrogate that belongs to no pair has the three bytes of its code point.
 */
enum class Scheme : std::uint32_t {
    utf8 = WIDE_UTF8,
    utf16le = WIDE_UTF16LE,
    utf16be = WIDE_UTF16BE,
    utf16 = WIDE_UTF16,
    utf32le = WIDE_UTF32LE,
    utf32be = WIDE_UTF32BE,
    utf32 = WIDE_UTF32,
    wtf8 = WIDE_WTF8
};

/* Returns the WIDESTRING_VERSION_NUMBER of the library that the program runs with. */
inline std::uint32_t version() noexcept {
    return wide_version();
}

/*
 * How a string gets a number of elements of which a function writes the first ones and returns how many it wrote. Since
 * C++23 the standard library can write to a string without filling it first. Before, libraries have their own
 * functions. Up to release 13, libstdc++ has a private member that sets a length within the capacity of a string, and
 * an explicit instantiation may name it. The members of libc++ change from version to version, so they are used if they
 * are found. If there is none, or with WIDESTRING_STD_ONLY, strings are filled first.
 *
 * Everything below is in a namespace for each of these ways, and for each set of argument types, so that files of one
 * program may be compiled differently.
 */
#if defined(__cpp_lib_string_resize_and_overwrite)
#define WIDESTRING_STRINGS by_std
#elif defined(WIDESTRING_STD_ONLY)
#define WIDESTRING_STRINGS filled
#elif defined(__GLIBCXX__) && _GLIBCXX_USE_CXX11_ABI && _GLIBCXX_RELEASE >= 7 && _GLIBCXX_RELEASE <= 13
#define WIDESTRING_STRINGS by_libstdcxx
#define WIDESTRING_SETS_LENGTH
#else
#define WIDESTRING_STRINGS by_extension
#endif
#ifdef __cpp_lib_span
#define WIDESTRING_TEXTS of_spans
#else
#define WIDESTRING_TEXTS of_views
#endif

inline namespace WIDESTRING_STRINGS {
inline namespace WIDESTRING_TEXTS {
namespace detail {

#if defined(__cpp_lib_string_resize_and_overwrite)

inline constexpr bool is_filled = false;

template <class String, class Write> void overwrite(String &string, std::size_t length, Write write) {
    /* Some versions of the standard library pass a greater length than the requested one. */
    string.resize_and_overwrite(length, [&](typename String::value_type *to, std::size_t) { return write(to); });
}

#elif defined(WIDESTRING_SETS_LENGTH)

inline constexpr bool is_filled = false;

template <class String, void (String::*set)(typename String::size_type)> struct SetLength {
    friend void set_length(String &string, std::size_t length) {
        (string.*set)(length);
    }
};

void set_length(std::string &string, std::size_t length);
void set_length(std::wstring &string, std::size_t length);
void set_length(std::u16string &string, std::size_t length);
void set_length(std::u32string &string, std::size_t length);
/*
 * Declares the instantiations, and does not define them, since a program may define each only once. The friend
 * `set_length` is not a member: each file defines it, as an inline function.
 */
extern template struct SetLength<std::string, &std::string::_M_set_length>;
extern template struct SetLength<std::wstring, &std::wstring::_M_set_length>;
extern template struct SetLength<std::u16string, &std::u16string::_M_set_length>;
extern template struct SetLength<std::u32string, &std::u32string::_M_set_length>;

template <class String, class Write> void overwrite(String &string, std::size_t length, Write write) {
    string.reserve(length);
    set_length(string, length);
    set_length(string, write(string.data()));
}

#else

template <class String, class = void> struct HasOverwrite : std::false_type {};
template <class String, class = void> struct HasDefaultInit : std::false_type {};

#ifndef WIDESTRING_STD_ONLY
template <class String> using Writer = std::size_t (*)(typename String::value_type *, std::size_t);
template <class String>
struct HasOverwrite<String, std::void_t<decltype(std::declval<String &>().__resize_and_overwrite(0, std::declval<Writer<String>>()))>>
    : std::true_type {};
template <class String>
struct HasDefaultInit<String, std::void_t<decltype(std::declval<String &>().__resize_default_init(0))>> : std::true_type {};
#endif

inline constexpr bool is_filled = !HasOverwrite<std::string>::value && !HasDefaultInit<std::string>::value;

template <class String, class Write> void overwrite(String &string, std::size_t length, Write write) {
    if constexpr (HasOverwrite<String>::value) {
        string.__resize_and_overwrite(length, [&](typename String::value_type *to, std::size_t) { return write(to); });
    } else {
        if constexpr (HasDefaultInit<String>::value)
            string.__resize_default_init(length);
        else
            string.resize(length);
        string.resize(write(string.data()));
    }
}

#endif

/*
 * How many elements go through an array on the stack. If strings are filled before they are written, all chunks go
 * through it, and a chunk and its result stay in the cache. If they are not, only the first chunk goes through it, and
 * its result predicts the length.
 */
inline constexpr std::size_t chunk_size = is_filled ? 4096 : 512;

/* Up to this many elements, a string is made as long as the input if no element becomes two. */
inline constexpr std::size_t middle = 65536;

/*
 * Code units at a pointer of the type that the C functions take. Their own type may be another one of the same width,
 * like char16_t. The compiler does not see the code of the C library, so that may access the units by its type. Code in
 * this header must not: it copies them by memcpy.
 */
template <class Unit> struct Units {
    const Unit *data = nullptr;
    std::size_t size = 0;

    Units prefix(std::size_t length) const noexcept {
        return {data, length};
    }

    Units without(std::size_t length) const noexcept {
        return {data + length, size - length};
    }
};

/* The elements of a string as the C functions write them. */
inline std::uint8_t *elements(char *text) noexcept {
    return reinterpret_cast<std::uint8_t *>(text);
}

inline std::uint16_t *elements(char16_t *text) noexcept {
    return reinterpret_cast<std::uint16_t *>(text);
}

inline std::uint32_t *elements(char32_t *text) noexcept {
    return reinterpret_cast<std::uint32_t *>(text);
}

inline std::uint32_t *elements(wchar_t *text) noexcept {
    return reinterpret_cast<std::uint32_t *>(text);
}

/* The type that views elements of this type. Numbers that are not characters have spans only. */
template <class Char> struct ViewOf {
    using Type = std::basic_string_view<Char>;
};

#ifdef __cpp_lib_span
template <class Number> struct SpanOf {
    using Type = std::span<const Number>;
};
#else
template <class Number> struct SpanOf {
    class Type {
        Type() = default;
    };
};
#endif
template <> struct ViewOf<std::uint8_t> : SpanOf<std::uint8_t> {};
template <> struct ViewOf<std::uint16_t> : SpanOf<std::uint16_t> {};
template <> struct ViewOf<std::uint32_t> : SpanOf<std::uint32_t> {};

/* The view that a text converts to, for the first element type that has one, or void. */
template <class Text, class... Chars> struct TextView {
    using Type = void;
};
template <class Text, class Char, class... Chars>
struct TextView<Text, Char, Chars...>
    : std::conditional_t<std::is_convertible_v<const Text &, typename ViewOf<Char>::Type>, ViewOf<Char>, TextView<Text, Chars...>> {};

} // namespace detail

/*
 * The text that a function reads. It is made from anything that converts to a standard view of one of these character
 * types, like strings and literals; since C++20, from anything that converts to a span of units; or from a pointer to
 * one of these types and a length. It does not own its elements, and is meant to be used as a parameter only.
 */
template <class Unit, class... Chars> class CodeUnits : public detail::Units<Unit> {
  public:
    template <class Text, class View = typename detail::TextView<Text, Chars..., Unit>::Type, class = std::enable_if_t<!std::is_void_v<View>>>
    CodeUnits(const Text &text) noexcept(noexcept(View(text))) {
        const View view = text;
        this->data = reinterpret_cast<const Unit *>(view.data());
        this->size = view.size();
    }

    CodeUnits(const detail::Units<Unit> &units) noexcept : detail::Units<Unit>(units) {}

    template <class Char, class = std::enable_if_t<(std::is_same_v<Char, Unit> || ... || std::is_same_v<Char, Chars>)>>
    CodeUnits(const Char *text, std::size_t length) noexcept {
        this->data = reinterpret_cast<const Unit *>(text);
        this->size = length;
    }
};

/* UTF-8, or bytes of UTF-16. */
#ifdef __cpp_char8_t
using Utf8Units = CodeUnits<std::uint8_t, char, char8_t>;
#else
using Utf8Units = CodeUnits<std::uint8_t, char>;
#endif
using Utf16Units = CodeUnits<std::uint16_t, char16_t>;
using Utf32Units = CodeUnits<std::uint32_t, char32_t, wchar_t>;

namespace detail {

/* Returns the result, or std::nullopt if it is the number that stands for none. */
inline std::optional<std::size_t> unless(std::size_t none, std::size_t result) noexcept {
    return result == none ? std::nullopt : std::optional<std::size_t>(result);
}

/*
 * Returns the length of a prefix that ends between two characters or after a fault. It does not split a surrogate pair.
 */
inline std::size_t first_chunk(Units<std::uint16_t> units) noexcept {
    if (units.size <= chunk_size)
        return units.size;
    std::uint16_t pair[2];
    std::memcpy(pair, units.data + chunk_size - 1, sizeof pair);
    const bool is_pair = (pair[0] & 0xfc00) == 0xd800 && (pair[1] & 0xfc00) == 0xdc00;
    return is_pair ? chunk_size - 1 : chunk_size;
}

inline std::size_t first_chunk(Units<std::uint32_t> units) noexcept {
    return units.size <= chunk_size ? units.size : chunk_size;
}

/*
 * Returns the length of a prefix that splits no character: it ends before a byte that does not continue one. If each of
 * four adjacent bytes continues one, the last of them belongs to no character, since at most three bytes do. Bytes may
 * be read as such, whatever their own type is.
 */
inline std::size_t first_chunk(Units<std::uint8_t> text) noexcept {
    if (text.size <= chunk_size)
        return text.size;
    for (std::size_t at = chunk_size; at > chunk_size - 4; at--)
        if ((text.data[at] & 0xc0) != 0x80)
            return at;
    return chunk_size;
}

/*
 * Converts a text each of whose elements becomes at most one element. Returns std::nullopt for a fault. Releases memory
 * if less than half is used.
 */
template <class String, class Unit, class Put> std::optional<String> within(Units<Unit> text, Put put) {
    String string;
    bool is_fault = false;
    overwrite(string, text.size, [&](typename String::value_type *to) {
        const std::size_t length = put(text.data, text.size, elements(to), text.size);
        is_fault = length == WIDE_FAULT;
        return is_fault ? 0 : length;
    });
    if (is_fault)
        return std::nullopt;
    if (string.size() < text.size / 2)
        string.shrink_to_fit();
    return std::optional<String>(std::move(string));
}

/*
 * Converts the rest of a text after the result of the first chunk, directly into a string of the likely length, and
 * once more if that is too short. Returns std::nullopt for a fault. Releases memory if less than half is used.
 */
template <class String, class Unit, class Put>
std::optional<String> joined(const typename String::value_type *begun, std::size_t length, Units<Unit> rest, std::size_t likely, Put put) {
    String string;
    std::size_t whole = 0, needed = likely;
    bool is_fault = false;
    do {
        whole = needed;
        overwrite(string, whole, [&](typename String::value_type *to) {
            String::traits_type::copy(to, begun, length);
            const std::size_t more = put(rest.data, rest.size, elements(to) + length, whole - length);
            is_fault = more == WIDE_FAULT;
            needed = is_fault ? 0 : length + more;
            return needed <= whole ? needed : 0;
        });
    } while (needed > whole);
    if (is_fault)
        return std::nullopt;
    if (string.size() < whole / 2)
        string.shrink_to_fit();
    return std::optional<String>(std::move(string));
}

/*
 * Converts the rest of a text chunk by chunk, through the array that the result of the first chunk is in. Returns
 * std::nullopt for a fault.
 */
template <class String, class Unit, class Put, std::size_t Size>
std::optional<String> appended(typename String::value_type (&buffer)[Size], std::size_t length, Units<Unit> rest, std::size_t likely, Put put) {
    String string;
    string.reserve(likely);
    string.append(buffer, length);
    while (rest.size > 0) {
        const Units<Unit> next = rest.prefix(first_chunk(rest));
        const std::size_t more = put(next.data, next.size, elements(buffer), Size);
        if (more == WIDE_FAULT)
            return std::nullopt;
        string.append(buffer, more);
        rest = rest.without(next.size);
    }
    return std::optional<String>(std::move(string));
}

/*
 * Converts a text. Returns std::nullopt if the conversion returns a fault. For a longer text, the result of the first
 * chunk predicts the length.
 */
template <class String, class Unit, class Put> std::optional<String> converted(Units<Unit> text, Put put) {
    /* An element becomes at most four bytes in each form. */
    constexpr std::size_t size = 4 * chunk_size / sizeof(typename String::value_type);
    constexpr bool is_within = !is_filled && sizeof(typename String::value_type) >= sizeof(Unit);
    if (is_within && text.size > chunk_size && text.size <= middle)
        return within<String>(text, put);
    typename String::value_type buffer[size];
    const Units<Unit> first = text.prefix(first_chunk(text));
    const std::size_t length = put(first.data, first.size, elements(buffer), size);
    if (length == WIDE_FAULT)
        return std::nullopt;
    if (first.size == text.size)
        return std::optional<String>(std::in_place, buffer, length);
    const std::size_t each = length * (text.size / first.size + 1), likely = each + each / 16;
    const Units<Unit> rest = text.without(first.size);
    if constexpr (is_filled)
        return appended<String>(buffer, length, rest, likely, put);
    else
        return joined<String>(buffer, length, rest, likely, put);
}

/*
 * Converts a text lossily. A run of faults may cross chunks, so under the policy `run` a text with faults is converted
 * as a whole.
 */
template <class String, class Unit, class Put, class PutLossy> String lossy(Units<Unit> text, Lossy policy, Put put, PutLossy put_lossy) {
    const auto number = static_cast<std::uint32_t>(policy);
    const auto put_with = [&](auto *from, std::size_t size, auto *to, std::size_t capacity) { return put_lossy(from, size, number, to, capacity); };
    if (policy != Lossy::run)
        return converted<String>(text, put_with).value();
    if (auto string = converted<String>(text, put))
        return *std::move(string);
    String string;
    const std::size_t length = put_lossy(text.data, text.size, number, nullptr, 0);
    overwrite(string, length, [&](auto *to) { return put_with(text.data, text.size, elements(to), length); });
    return string;
}

/*
 * Converts bytes by two calls, the first of which only returns the length. Returns std::nullopt if the conversion
 * returns a fault.
 */
template <class Put> std::optional<std::string> by_two_calls(Units<std::uint8_t> bytes, Put put) {
    const std::size_t length = put(bytes.data, bytes.size, static_cast<std::uint8_t *>(nullptr), 0);
    if (length == WIDE_FAULT)
        return std::nullopt;
    std::string text;
    overwrite(text, length, [&](char *to) { return put(bytes.data, bytes.size, elements(to), length); });
    return std::optional<std::string>(std::move(text));
}

/*
 * Converts a text whose result has this length. Returns std::nullopt if that is WIDE_FAULT.
 */
template <class String, class Unit, class Put> std::optional<String> of_length(Units<Unit> text, std::size_t length, Put put) {
    if (length == WIDE_FAULT)
        return std::nullopt;
    String string;
    overwrite(string, length, [&](auto *to) { return put(text.data, text.size, elements(to), length); });
    return std::optional<String>(std::move(string));
}

} // namespace detail

/*
 * Returns bytes of other types as a view of char, which may refer to elements of any type. Numbers of 16 and 32 bits
 * are read as spans only.
 */
#ifdef __cpp_lib_span
inline std::string_view view(std::span<const std::uint8_t> text) noexcept {
    return {reinterpret_cast<const char *>(text.data()), text.size()};
}
#endif

#ifdef __cpp_char8_t
inline std::string_view view(std::u8string_view text) noexcept {
    return {reinterpret_cast<const char *>(text.data()), text.size()};
}
#endif

/*
 * Returns the offset of the first element of the first ill-formed sequence, or std::nullopt if the text is well formed.
 */
inline std::optional<std::size_t> first_fault(Utf8Units text) noexcept {
    return detail::unless(text.size, wide_utf8_first_fault(text.data, text.size));
}

inline std::optional<std::size_t> first_fault(Utf16Units units) noexcept {
    return detail::unless(units.size, wide_utf16_first_fault(units.data, units.size));
}

inline std::optional<std::size_t> first_fault(Utf32Units units) noexcept {
    return detail::unless(units.size, wide_utf32_first_fault(units.data, units.size));
}

/* Returns how many characters precede the first ill-formed unit, or std::nullopt if the text is well formed. */
inline std::optional<std::size_t> first_fault_item(Utf16Units units) noexcept {
    return detail::unless(SIZE_MAX, wide_utf16_first_fault_item(units.data, units.size));
}

inline std::optional<std::size_t> first_fault_item(Utf32Units units) noexcept {
    return detail::unless(SIZE_MAX, wide_utf32_first_fault_item(units.data, units.size));
}

/* Returns whether the text is well formed. */
template <class View> bool valid(const View &text) noexcept(noexcept(first_fault(text))) {
    return !first_fault(text).has_value();
}

/* Returns how many characters a text has, or std::nullopt if it is ill-formed. */
inline std::optional<std::size_t> char_count(Utf8Units text) noexcept {
    return detail::unless(WIDE_FAULT, wide_utf8_char_count(text.data, text.size));
}

inline std::optional<std::size_t> char_count(Utf16Units units) noexcept {
    return detail::unless(WIDE_FAULT, wide_utf16_char_count(units.data, units.size));
}

inline std::optional<std::size_t> char_count(Utf32Units units) noexcept {
    return detail::unless(WIDE_FAULT, wide_utf32_char_count(units.data, units.size));
}

/*
 * Returns the length of a text in another encoding form, in bytes of UTF-8 or in units, or std::nullopt if it is
 * ill-formed.
 */
inline std::optional<std::size_t> utf8_length(Utf16Units units) noexcept {
    return detail::unless(WIDE_FAULT, wide_utf16_utf8_length(units.data, units.size));
}

inline std::optional<std::size_t> utf8_length(Utf32Units units) noexcept {
    return detail::unless(WIDE_FAULT, wide_utf32_utf8_length(units.data, units.size));
}

inline std::optional<std::size_t> utf16_length(Utf8Units text) noexcept {
    return detail::unless(WIDE_FAULT, wide_utf8_utf16_length(text.data, text.size));
}

inline std::optional<std::size_t> utf16_length(Utf32Units units) noexcept {
    return detail::unless(WIDE_FAULT, wide_utf32_utf16_length(units.data, units.size));
}

inline std::optional<std::size_t> utf32_length(Utf8Units text) noexcept {
    return detail::unless(WIDE_FAULT, wide_utf8_utf32_length(text.data, text.size));
}

inline std::optional<std::size_t> utf32_length(Utf16Units units) noexcept {
    return detail::unless(WIDE_FAULT, wide_utf16_utf32_length(units.data, units.size));
}

/* Returns the offset of the first NUL, or std::nullopt if there is none. */
inline std::optional<std::size_t> first_nul(Utf16Units units) noexcept {
    return detail::unless(units.size, wide_utf16_first_nul(units.data, units.size));
}

inline std::optional<std::size_t> first_nul(Utf32Units units) noexcept {
    return detail::unless(units.size, wide_utf32_first_nul(units.data, units.size));
}

/*
 * Returns the offset of the first unit that equals `unit`, or of the first occurrence of the needle, or std::nullopt if
 * there is none. An empty needle occurs at offset 0.
 */
inline std::optional<std::size_t> find(Utf16Units units, char16_t unit) noexcept {
    return detail::unless(units.size, wide_utf16_find_unit(units.data, units.size, unit));
}

inline std::optional<std::size_t> find(Utf32Units units, char32_t unit) noexcept {
    return detail::unless(units.size, wide_utf32_find_unit(units.data, units.size, unit));
}

inline std::optional<std::size_t> find(Utf16Units units, Utf16Units needle) noexcept {
    return detail::unless(SIZE_MAX, wide_utf16_find(units.data, units.size, needle.data, needle.size));
}

inline std::optional<std::size_t> find(Utf32Units units, Utf32Units needle) noexcept {
    return detail::unless(SIZE_MAX, wide_utf32_find(units.data, units.size, needle.data, needle.size));
}

/*
 * Returns the offset of the last occurrence of the needle, or std::nullopt if there is none. An empty needle occurs at
 * the end.
 */
inline std::optional<std::size_t> rfind(Utf16Units units, Utf16Units needle) noexcept {
    return detail::unless(SIZE_MAX, wide_utf16_rfind(units.data, units.size, needle.data, needle.size));
}

inline std::optional<std::size_t> rfind(Utf32Units units, Utf32Units needle) noexcept {
    return detail::unless(SIZE_MAX, wide_utf32_rfind(units.data, units.size, needle.data, needle.size));
}

/*
 * Returns the offset of the first occurrence of the needle without regard to the case of ASCII letters, or std::nullopt
 * if there is none. An empty needle occurs at offset 0.
 */
inline std::optional<std::size_t> find_ignore_ascii_case(Utf16Units units, Utf16Units needle) noexcept {
    return detail::unless(SIZE_MAX, wide_utf16_find_ignore_ascii_case(units.data, units.size, needle.data, needle.size));
}

inline std::optional<std::size_t> find_ignore_ascii_case(Utf32Units units, Utf32Units needle) noexcept {
    return detail::unless(SIZE_MAX, wide_utf32_find_ignore_ascii_case(units.data, units.size, needle.data, needle.size));
}

/* Returns whether both texts have the same units without regard to the case of ASCII letters. */
inline bool eq_ignore_ascii_case(Utf16Units units, Utf16Units other) noexcept {
    return wide_utf16_eq_ignore_ascii_case(units.data, units.size, other.data, other.size) != 0;
}

inline bool eq_ignore_ascii_case(Utf32Units units, Utf32Units other) noexcept {
    return wide_utf32_eq_ignore_ascii_case(units.data, units.size, other.data, other.size) != 0;
}

/*
 * Compares two texts by their code points, as UTF-8 and UTF-32 are ordered. Returns a negative number if the first text
 * is less than the other one, 0 if both are the same, and a positive number if the first one is greater. An ill-formed
 * unit counts by its number.
 */
inline int compare_code_points(Utf16Units units, Utf16Units other) noexcept {
    return wide_utf16_compare_code_points(units.data, units.size, other.data, other.size);
}

inline int compare_code_points(Utf32Units units, Utf32Units other) noexcept {
    return wide_utf32_compare_code_points(units.data, units.size, other.data, other.size);
}

/* Converts well-formed units or bytes to UTF-8, UTF-16 or UTF-32. Returns std::nullopt if they are ill-formed. */
inline std::optional<std::string> to_utf8(Utf16Units units) {
    return detail::converted<std::string>(units, wide_utf16_to_utf8);
}

inline std::optional<std::string> to_utf8(Utf32Units units) {
    return detail::converted<std::string>(units, wide_utf32_to_utf8);
}

inline std::optional<std::u16string> to_utf16(Utf8Units text) {
    return detail::converted<std::u16string>(text, wide_utf8_to_utf16);
}

inline std::optional<std::u16string> to_utf16(Utf32Units units) {
    return detail::converted<std::u16string>(units, wide_utf32_to_utf16);
}

inline std::optional<std::u32string> to_utf32(Utf8Units text) {
    return detail::converted<std::u32string>(text, wide_utf8_to_utf32);
}

inline std::optional<std::u32string> to_utf32(Utf16Units units) {
    return detail::converted<std::u32string>(units, wide_utf16_to_utf32);
}

/*
 * Converts well-formed UTF-8 or UTF-16 to UTF-32 as a string of wchar_t. Returns std::nullopt if the input is
 * ill-formed.
 */
inline std::optional<std::wstring> to_wstring(Utf8Units text) {
    return detail::converted<std::wstring>(text, wide_utf8_to_utf32);
}

inline std::optional<std::wstring> to_wstring(Utf16Units units) {
    return detail::converted<std::wstring>(units, wide_utf16_to_utf32);
}

/* Converts any units to UTF-8, and replaces ill-formed units by the policy. */
inline std::string to_utf8_lossy(Utf16Units units, Lossy policy = Lossy::each) {
    return detail::lossy<std::string>(units, policy, wide_utf16_to_utf8, wide_utf16_to_utf8_lossy_with);
}

inline std::string to_utf8_lossy(Utf32Units units, Lossy policy = Lossy::each) {
    return detail::lossy<std::string>(units, policy, wide_utf32_to_utf8, wide_utf32_to_utf8_lossy_with);
}

/*
 * Converts any bytes to UTF-16 or UTF-32, and replaces maximal subparts of ill-formed sequences by the policy: the
 * longest prefix that begins a character of UTF-8 but does not continue as one, or a byte that begins none.
 */
inline std::u16string to_utf16_lossy(Utf8Units text, Lossy policy = Lossy::each) {
    return detail::lossy<std::u16string>(text, policy, wide_utf8_to_utf16, wide_utf8_to_utf16_lossy_with);
}

inline std::u32string to_utf32_lossy(Utf8Units text, Lossy policy = Lossy::each) {
    return detail::lossy<std::u32string>(text, policy, wide_utf8_to_utf32, wide_utf8_to_utf32_lossy_with);
}

inline std::wstring to_wstring_lossy(Utf8Units text, Lossy policy = Lossy::each) {
    return detail::lossy<std::wstring>(text, policy, wide_utf8_to_utf32, wide_utf8_to_utf32_lossy_with);
}

/*
 * Converts any UTF-16 to UTF-32, or any UTF-32 to UTF-16, and replaces ill-formed units by the policy.
 */
inline std::u32string to_utf32_lossy(Utf16Units units, Lossy policy = Lossy::each) {
    return detail::lossy<std::u32string>(units, policy, wide_utf16_to_utf32, wide_utf16_to_utf32_lossy_with);
}

inline std::u16string to_utf16_lossy(Utf32Units units, Lossy policy = Lossy::each) {
    return detail::lossy<std::u16string>(units, policy, wide_utf32_to_utf16, wide_utf32_to_utf16_lossy_with);
}

/* Converts any UTF-16 to UTF-32 as a string of wchar_t, and replaces ill-formed units by the policy. */
inline std::wstring to_wstring_lossy(Utf16Units units, Lossy policy = Lossy::each) {
    return detail::lossy<std::wstring>(units, policy, wide_utf16_to_utf32, wide_utf16_to_utf32_lossy_with);
}

/*
 * Returns the offset of the first fault of WTF-8, or std::nullopt if there is none: an ill-formed sequence of UTF-8 that
 * is no surrogate, or the second half of a surrogate pair whose halves are written apart.
 */
inline std::optional<std::size_t> wtf8_first_fault(Utf8Units text) noexcept {
    return detail::unless(text.size, wide_wtf8_first_fault(text.data, text.size));
}

/* Converts any UTF-16 to WTF-8, which keeps each unit. */
inline std::string to_wtf8(Utf16Units units) {
    return detail::converted<std::string>(units, wide_utf16_to_wtf8).value();
}

/*
 * Converts WTF-8 to the units of UTF-16 that it was made of, well formed or not. Returns std::nullopt if the bytes are
 * not WTF-8.
 */
inline std::optional<std::u16string> wtf8_to_utf16(Utf8Units text) {
    return detail::of_length<std::u16string>(text, wide_wtf8_utf16_length(text.data, text.size), wide_wtf8_to_utf16);
}

/* Returns the number of ill-formed sequences: units, or maximal subparts of UTF-8. */
inline std::size_t fault_count(Utf8Units text) noexcept {
    return wide_utf8_fault_count(text.data, text.size);
}

inline std::size_t fault_count(Utf16Units units) noexcept {
    return wide_utf16_fault_count(units.data, units.size);
}

inline std::size_t fault_count(Utf32Units units) noexcept {
    return wide_utf32_fault_count(units.data, units.size);
}

/* Returns whether all elements are ASCII. An empty text is. */
inline bool is_ascii(Utf8Units text) noexcept {
    return wide_utf8_is_ascii(text.data, text.size) != 0;
}

inline bool is_ascii(Utf16Units units) noexcept {
    return wide_utf16_is_ascii(units.data, units.size) != 0;
}

inline bool is_ascii(Utf32Units units) noexcept {
    return wide_utf32_is_ascii(units.data, units.size) != 0;
}

/*
 * Returns the greatest offset that is at most `offset` and at most the length, and that does not split a surrogate pair.
 */
inline std::size_t floor_char_boundary(Utf16Units units, std::size_t offset) noexcept {
    return wide_utf16_floor_char_boundary(units.data, units.size, offset);
}

/*
 * Returns the units of UTF-16 or UTF-32 in bytes, of any values, or std::nullopt if part of a unit is left at the end.
 */
inline std::optional<std::u16string> utf16_from_bytes(Utf8Units bytes, Order order) {
    const auto put = [number = static_cast<std::uint32_t>(order)](auto *from, std::size_t size, auto *to, std::size_t capacity) {
        return wide_utf16_from_bytes(from, size, number, to, capacity);
    };
    return detail::of_length<std::u16string>(bytes, bytes.size % 2 == 0 ? bytes.size / 2 : WIDE_FAULT, put);
}

inline std::optional<std::u32string> utf32_from_bytes(Utf8Units bytes, Order order) {
    const auto put = [number = static_cast<std::uint32_t>(order)](auto *from, std::size_t size, auto *to, std::size_t capacity) {
        return wide_utf32_from_bytes(from, size, number, to, capacity);
    };
    return detail::of_length<std::u32string>(bytes, bytes.size % 4 == 0 ? bytes.size / 4 : WIDE_FAULT, put);
}

/* Returns the bytes of units in a byte order. The units may have any values. */
inline std::string to_bytes(Utf16Units units, Order order) {
    const auto put = [number = static_cast<std::uint32_t>(order)](auto *from, std::size_t size, auto *to, std::size_t capacity) {
        return wide_utf16_to_bytes(from, size, number, to, capacity);
    };
    return detail::of_length<std::string>(units, 2 * units.size, put).value();
}

inline std::string to_bytes(Utf32Units units, Order order) {
    const auto put = [number = static_cast<std::uint32_t>(order)](auto *from, std::size_t size, auto *to, std::size_t capacity) {
        return wide_utf32_to_bytes(from, size, number, to, capacity);
    };
    return detail::of_length<std::string>(units, 4 * units.size, put).value();
}

/* Copies the units, and reverses the order of the bytes in each. */
inline std::u16string swap_bytes(Utf16Units units) {
    return detail::converted<std::u16string>(units, wide_utf16_swap_bytes).value();
}

inline std::u32string swap_bytes(CodeUnits<std::uint32_t, char32_t> units) {
    return detail::converted<std::u32string>(units, wide_utf32_swap_bytes).value();
}

/* Replaces each ill-formed unit of a string by U+FFFD where it is, and returns how many were replaced. */
inline std::size_t repair_in_place(std::u16string &units) noexcept {
    return wide_utf16_repair_in_place(detail::elements(units.data()), units.size());
}

inline std::size_t repair_in_place(std::u32string &units) noexcept {
    return wide_utf32_repair_in_place(detail::elements(units.data()), units.size());
}

inline std::size_t repair_in_place(std::wstring &units) noexcept {
    return wide_utf32_repair_in_place(detail::elements(units.data()), units.size());
}

/* How many elements a call read and wrote. */
struct Part {
    std::size_t read, written;
};

/*
 * Converts as many characters as fit into a buffer. It stops at the end of the text, at the first ill-formed sequence, or
 * where the next character does not fit. A character has at most 4 bytes of UTF-8 or 2 units of UTF-16: if nothing was
 * read though there is that much space, and the text is not empty, an ill-formed sequence is next.
 */
inline Part to_utf8_part(Utf16Units units, char *text, std::size_t capacity) noexcept {
    std::size_t read = 0;
    const std::size_t written = wide_utf16_to_utf8_part(units.data, units.size, detail::elements(text), capacity, &read);
    return {read, written};
}

inline Part to_utf8_part(Utf32Units units, char *text, std::size_t capacity) noexcept {
    std::size_t read = 0;
    const std::size_t written = wide_utf32_to_utf8_part(units.data, units.size, detail::elements(text), capacity, &read);
    return {read, written};
}

inline Part to_utf16_part(Utf8Units text, char16_t *units, std::size_t capacity) noexcept {
    std::size_t read = 0;
    const std::size_t written = wide_utf8_to_utf16_part(text.data, text.size, detail::elements(units), capacity, &read);
    return {read, written};
}

inline Part to_utf16_part(Utf32Units text, char16_t *units, std::size_t capacity) noexcept {
    std::size_t read = 0;
    const std::size_t written = wide_utf32_to_utf16_part(text.data, text.size, detail::elements(units), capacity, &read);
    return {read, written};
}

inline Part to_utf32_part(Utf8Units text, char32_t *units, std::size_t capacity) noexcept {
    std::size_t read = 0;
    const std::size_t written = wide_utf8_to_utf32_part(text.data, text.size, detail::elements(units), capacity, &read);
    return {read, written};
}

inline Part to_utf32_part(Utf16Units text, char32_t *units, std::size_t capacity) noexcept {
    std::size_t read = 0;
    const std::size_t written = wide_utf16_to_utf32_part(text.data, text.size, detail::elements(units), capacity, &read);
    return {read, written};
}

#ifdef __cpp_lib_span
template <class Text> Part to_utf8_part(const Text &text, std::span<char> to) noexcept {
    return to_utf8_part(text, to.data(), to.size());
}

template <class Text> Part to_utf16_part(const Text &text, std::span<char16_t> to) noexcept {
    return to_utf16_part(text, to.data(), to.size());
}

template <class Text> Part to_utf32_part(const Text &text, std::span<char32_t> to) noexcept {
    return to_utf32_part(text, to.data(), to.size());
}
#endif

/*
 * Converts a text from one encoding scheme to another, in pieces of any lengths. What it writes does not depend on them.
 * It may be copied, and never allocates, except in `append`.
 */
class Converter {
  public:
    /*
     * Begins a conversion. Under a policy ill-formed sequences are replaced; without one, a call stops at each. With
     * `bom`, a BOM is written before the text. If a number is none of its enumeration, it throws std::bad_optional_access.
     */
    Converter(Scheme from, Scheme to, std::optional<Lossy> policy = std::nullopt, bool bom = false) {
        const auto number = policy ? static_cast<std::uint32_t>(*policy) : WIDE_STRICT;
        if (wide_convert_start(&state_, static_cast<std::uint32_t>(from), static_cast<std::uint32_t>(to), number, bom) == 0)
            static_cast<void>(std::optional<int>().value());
    }

    /*
     * Converts the next bytes, which are the last ones if `is_last` is true, into a buffer, and returns how many bytes
     * were read and written. `state().end` says why it stopped, as widestring.h describes.
     */
    Part push(Utf8Units input, char *output, std::size_t capacity, bool is_last = false) noexcept {
        const std::size_t written = wide_convert_push(&state_, input.data, input.size, is_last, detail::elements(output), capacity);
        return {state_.read, written};
    }

#ifdef __cpp_lib_span
    Part push(Utf8Units input, std::span<char> output, bool is_last = false) noexcept {
        return push(input, output.data(), output.size(), is_last);
    }
#endif

    /*
     * Converts the next bytes, which are the last ones if `is_last` is true, and appends what is written. Returns how
     * many bytes were read: all of them, or those up to the end of an ill-formed sequence, if there is no policy.
     */
    std::size_t append(Utf8Units input, std::string &output, bool is_last = false) {
        char buffer[4096];
        std::size_t read = 0;
        do {
            const Part part = push({input.data + read, input.size - read}, buffer, sizeof buffer, is_last);
            output.append(buffer, part.written);
            read += part.read;
        } while (state_.end == WIDE_NO_SPACE);
        return read;
    }

    /* Returns how far the conversion came, and why the last call stopped. */
    const WideConverter &state() const noexcept {
        return state_;
    }

  private:
    WideConverter state_;
};

/*
 * Returns the byte order of the BOM at the start of UTF-16 in bytes, or std::nullopt if there is none. The two bytes of
 * the BOM do not belong to the text.
 */
inline std::optional<Order> utf16_bytes_order(Utf8Units bytes) noexcept {
    const std::uint32_t number = wide_utf16_bytes_order(bytes.data, bytes.size);
    return number == WIDE_NO_BOM ? std::nullopt : std::optional<Order>(static_cast<Order>(number));
}

/*
 * Returns how many bytes at the start are whole units whose meaning no later bytes can change: all whole units, except
 * a last high surrogate.
 */
inline std::size_t utf16_bytes_complete(Utf8Units bytes, Order order) noexcept {
    return wide_utf16_bytes_complete(bytes.data, bytes.size, static_cast<std::uint32_t>(order));
}

/* Returns the offset, in units, of the first ill-formed unit in the bytes, or std::nullopt if there is none. */
inline std::optional<std::size_t> utf16_bytes_first_fault(Utf8Units bytes, Order order) noexcept {
    const auto number = static_cast<std::uint32_t>(order);
    return detail::unless(bytes.size / 2, wide_utf16_bytes_first_fault(bytes.data, bytes.size, number));
}

/*
 * Returns whether the last whole unit is ill-formed. If there are no whole units, it returns `after_fault`, which says
 * whether the unit before the bytes is ill-formed.
 */
inline bool utf16_bytes_end_in_fault(Utf8Units bytes, Order order, bool after_fault = false) noexcept {
    const auto number = static_cast<std::uint32_t>(order);
    return wide_utf16_bytes_end_in_fault(bytes.data, bytes.size, number, after_fault) != 0;
}

/*
 * Converts bytes of well-formed UTF-16 to UTF-8. Returns std::nullopt if the number of bytes is odd or the units are
 * ill-formed.
 */
inline std::optional<std::string> utf16_bytes_to_utf8(Utf8Units bytes, Order order) {
    const auto put = [number = static_cast<std::uint32_t>(order)](auto *from, std::size_t size, auto *buffer, std::size_t capacity) {
        return wide_utf16_bytes_to_utf8(from, size, number, buffer, capacity);
    };
    return detail::by_two_calls(bytes, put);
}

/*
 * Converts the whole units of any bytes to UTF-8, and replaces ill-formed units by the policy. `after_fault` says
 * whether the unit before the bytes is ill-formed. widestring.h describes how to read a stream.
 */
inline std::string utf16_bytes_to_utf8_lossy(Utf8Units bytes, Order order, Lossy policy = Lossy::each, bool after_fault = false) {
    const auto put = [=](auto *from, std::size_t size, auto *buffer, std::size_t capacity) {
        const auto number = static_cast<std::uint32_t>(order), policy_number = static_cast<std::uint32_t>(policy);
        return wide_utf16_bytes_to_utf8_lossy_with(from, size, number, policy_number, after_fault, buffer, capacity);
    };
    return detail::by_two_calls(bytes, put).value();
}

/*
 * Copies the units, and replaces each ill-formed unit by U+FFFD. The elements of the result have the type of the
 * argument's elements.
 */
inline std::u16string repair(Utf16Units units) {
    return detail::converted<std::u16string>(units, wide_utf16_repair).value();
}

inline std::u32string repair(CodeUnits<std::uint32_t, char32_t> units) {
    return detail::converted<std::u32string>(units, wide_utf32_repair).value();
}

inline std::wstring repair(std::wstring_view units) {
    return detail::converted<std::wstring>(Utf32Units(units), wide_utf32_repair).value();
}

/*
 * Copies the units, and writes each ASCII letter in lower case, or in upper case. The elements of the result have the
 * type of the argument's elements.
 */
inline std::u16string to_ascii_lowercase(Utf16Units units) {
    return detail::converted<std::u16string>(units, wide_utf16_to_ascii_lowercase).value();
}

inline std::u32string to_ascii_lowercase(CodeUnits<std::uint32_t, char32_t> units) {
    return detail::converted<std::u32string>(units, wide_utf32_to_ascii_lowercase).value();
}

inline std::wstring to_ascii_lowercase(std::wstring_view units) {
    return detail::converted<std::wstring>(Utf32Units(units), wide_utf32_to_ascii_lowercase).value();
}

inline std::u16string to_ascii_uppercase(Utf16Units units) {
    return detail::converted<std::u16string>(units, wide_utf16_to_ascii_uppercase).value();
}

inline std::u32string to_ascii_uppercase(CodeUnits<std::uint32_t, char32_t> units) {
    return detail::converted<std::u32string>(units, wide_utf32_to_ascii_uppercase).value();
}

inline std::wstring to_ascii_uppercase(std::wstring_view units) {
    return detail::converted<std::wstring>(Utf32Units(units), wide_utf32_to_ascii_uppercase).value();
}

} // inline namespace WIDESTRING_TEXTS
} // inline namespace WIDESTRING_STRINGS

#undef WIDESTRING_TEXTS
#undef WIDESTRING_STRINGS
#undef WIDESTRING_SETS_LENGTH

} // namespace widestring

#endif

#endif
