// Tests widestring.hpp against decoders and encoders written here: `test COUNT SEED`, with COUNT random texts of each
// kind.
#include <cstdlib>
#include <iostream>
#include <random>
#include <vector>
#include <widestring.hpp>

namespace {

// The item of an ill-formed sequence; every other item of a text is a character.
constexpr std::uint32_t fault = UINT32_MAX;

struct Items {
    std::vector<std::uint32_t> item;
    std::vector<std::size_t> offset;
};

std::mt19937_64 numbers;

std::uint32_t below(std::uint32_t bound) {
    return static_cast<std::uint32_t>(numbers() >> 32) % bound;
}

void must(bool holds, const char *call) {
    if (holds)
        return;
    std::cerr << call << ": another result\n";
    std::exit(1);
}

bool is_scalar(std::uint32_t number) {
    return number < 0xd800 || (number > 0xdfff && number < 0x110000);
}

// Appends a character in UTF-8: in its shortest form, by the number of its bits.
void put(std::string &text, std::uint32_t c) {
    const int more = c < 0x80 ? 0 : c < 0x800 ? 1 : c < 0x10000 ? 2 : 3;
    static const std::uint32_t lead[] = {0, 0xc0, 0xe0, 0xf0};
    text.push_back(static_cast<char>(lead[more] | c >> 6 * more));
    for (int left = more - 1; left >= 0; left--)
        text.push_back(static_cast<char>(0x80 | (c >> 6 * left & 0x3f)));
}

void put(std::u16string &text, std::uint32_t c) {
    if (c < 0x10000) {
        text.push_back(static_cast<char16_t>(c));
        return;
    }
    text.push_back(static_cast<char16_t>(0xd7c0 + (c >> 10)));
    text.push_back(static_cast<char16_t>(0xdc00 | (c & 0x3ff)));
}

void put(std::u32string &text, std::uint32_t c) {
    text.push_back(c);
}

void put(std::wstring &text, std::uint32_t c) {
    text.push_back(static_cast<wchar_t>(c));
}

// Returns the length of the first item of UTF-8, and sets the item: the character whose shortest form is at the start,
// or a fault.
std::size_t first_item(std::string_view rest, std::uint32_t &item) {
    const auto byte = [&](std::size_t at) { return at < rest.size() ? static_cast<unsigned char>(rest[at]) : 0u; };
    const unsigned lead = byte(0);
    const std::size_t length = lead < 0x80 ? 1 : lead < 0xc0 ? 0 : lead < 0xe0 ? 2 : lead < 0xf0 ? 3 : lead < 0xf8 ? 4 : 0;
    item = length == 1 ? lead : length == 0 ? fault : lead & (0xffu >> (length + 1));
    std::size_t at = 1;
    for (; at < length && (byte(at) & 0xc0) == 0x80; at++) {
        const std::uint32_t left = 6 * static_cast<std::uint32_t>(length - 1 - at);
        const std::uint32_t grown = item << 6 | (byte(at) & 0x3f), least = grown << left, greatest = least | ((1u << left) - 1);
        const std::uint32_t shortest = length == 2 ? 0x80 : length == 3 ? 0x800 : 0x10000;
        if (greatest < shortest || least > 0x10ffff || (least >= 0xd800 && greatest < 0xe000))
            break;
        item = grown;
    }
    if (at < length || length == 0)
        item = fault;
    return at;
}

std::size_t first_item(std::u16string_view rest, std::uint32_t &item) {
    const bool is_pair = rest.size() > 1 && (rest[0] & 0xfc00) == 0xd800 && (rest[1] & 0xfc00) == 0xdc00;
    item = is_pair ? 0x10000u + (rest[0] - 0xd800u) * 0x400u + (rest[1] - 0xdc00u) : is_scalar(rest[0]) ? rest[0] : fault;
    return is_pair ? 2 : 1;
}

std::size_t first_item(std::u32string_view rest, std::uint32_t &item) {
    item = is_scalar(rest[0]) ? rest[0] : fault;
    return 1;
}

std::size_t first_item(std::wstring_view rest, std::uint32_t &item) {
    const auto unit = static_cast<std::uint32_t>(rest[0]);
    item = is_scalar(unit) ? unit : fault;
    return 1;
}

template <class View> Items items_of(View rest) {
    Items items;
    for (std::size_t at = 0; at < rest.size();) {
        items.item.push_back(0);
        items.offset.push_back(at);
        at += first_item(rest.substr(at), items.item.back());
    }
    return items;
}

template <class String> String lossy_of(const Items &items, widestring::Lossy policy) {
    String text;
    bool after = false;
    for (const std::uint32_t item : items.item) {
        if (item != fault)
            put(text, item);
        else if (policy == widestring::Lossy::each || (policy == widestring::Lossy::run && !after))
            put(text, 0xfffd);
        after = item == fault;
    }
    return text;
}

template <class String> std::optional<String> text_of(const Items &items) {
    for (const std::uint32_t item : items.item)
        if (item == fault)
            return std::nullopt;
    return lossy_of<String>(items, widestring::Lossy::skip);
}

constexpr widestring::Lossy policies[] = {widestring::Lossy::each, widestring::Lossy::run, widestring::Lossy::skip};

template <class View> void check_faults(View text, const Items &items) {
    std::optional<std::size_t> offset;
    for (std::size_t at = items.item.size(); at-- > 0;)
        if (items.item[at] == fault)
            offset = items.offset[at];
    must(widestring::first_fault(text) == offset, "first_fault");
    must(widestring::valid(text) == !offset, "valid");
    must(widestring::char_count(text) == (offset ? std::nullopt : std::optional(items.item.size())), "char_count");
}

template <class String> std::optional<std::size_t> length_of(const std::optional<String> &text) {
    return text ? std::optional(text->size()) : std::nullopt;
}

// Checks that every function for UTF-8 or bytes returns the same for numbers as for the view of the same elements.
template <class Numbers> void compare(std::string_view text, const Numbers &numbers) {
    must(widestring::first_fault(numbers) == widestring::first_fault(text), "first_fault of numbers");
    must(widestring::valid(numbers) == widestring::valid(text), "valid of numbers");
    must(widestring::char_count(numbers) == widestring::char_count(text), "char_count of numbers");
    must(widestring::utf16_length(numbers) == widestring::utf16_length(text), "utf16_length of numbers");
    must(widestring::utf32_length(numbers) == widestring::utf32_length(text), "utf32_length of numbers");
    must(widestring::to_utf16(numbers) == widestring::to_utf16(text), "to_utf16 of numbers");
    must(widestring::to_utf32(numbers) == widestring::to_utf32(text), "to_utf32 of numbers");
    must(widestring::to_wstring(numbers) == widestring::to_wstring(text), "to_wstring of numbers");
    must(widestring::utf16_bytes_order(numbers) == widestring::utf16_bytes_order(text), "utf16_bytes_order of numbers");
    for (const auto policy : policies) {
        must(widestring::to_utf16_lossy(numbers, policy) == widestring::to_utf16_lossy(text, policy), "to_utf16_lossy of numbers");
        must(widestring::to_utf32_lossy(numbers, policy) == widestring::to_utf32_lossy(text, policy), "to_utf32_lossy of numbers");
        must(widestring::to_wstring_lossy(numbers, policy) == widestring::to_wstring_lossy(text, policy), "to_wstring_lossy of numbers");
    }
    for (const auto order : {widestring::Order::little, widestring::Order::big}) {
        must(widestring::utf16_bytes_complete(numbers, order) == widestring::utf16_bytes_complete(text, order), "utf16_bytes_complete of numbers");
        must(widestring::utf16_bytes_first_fault(numbers, order) == widestring::utf16_bytes_first_fault(text, order),
             "utf16_bytes_first_fault of numbers");
        must(widestring::utf16_bytes_end_in_fault(numbers, order) == widestring::utf16_bytes_end_in_fault(text, order),
             "utf16_bytes_end_in_fault of numbers");
        must(widestring::utf16_bytes_to_utf8(numbers, order) == widestring::utf16_bytes_to_utf8(text, order), "utf16_bytes_to_utf8 of numbers");
        must(widestring::utf16_bytes_to_utf8_lossy(numbers, order) == widestring::utf16_bytes_to_utf8_lossy(text, order),
             "utf16_bytes_to_utf8_lossy of numbers");
    }
}

template <class View, class Numbers> void compare_units(View text, const Numbers &numbers) {
    must(widestring::first_fault(numbers) == widestring::first_fault(text), "first_fault of numbers");
    must(widestring::first_fault_item(numbers) == widestring::first_fault_item(text), "first_fault_item of numbers");
    must(widestring::valid(numbers) == widestring::valid(text), "valid of numbers");
    must(widestring::char_count(numbers) == widestring::char_count(text), "char_count of numbers");
    must(widestring::utf8_length(numbers) == widestring::utf8_length(text), "utf8_length of numbers");
    must(widestring::first_nul(numbers) == widestring::first_nul(text), "first_nul of numbers");
    must(widestring::find(numbers, 0x7a) == widestring::find(text, 0x7a), "find of a unit in numbers");
    must(widestring::find(numbers, numbers) == std::optional<std::size_t>(0), "find of numbers");
    must(widestring::find(text, numbers) == std::optional<std::size_t>(0), "find of numbers in a view");
    must(widestring::rfind(numbers, numbers) == std::optional<std::size_t>(0), "rfind of numbers");
    must(widestring::find_ignore_ascii_case(numbers, numbers) == std::optional<std::size_t>(0), "find_ignore_ascii_case of numbers");
    must(widestring::eq_ignore_ascii_case(numbers, text), "eq_ignore_ascii_case of numbers");
    must(widestring::compare_code_points(numbers, text) == 0, "compare_code_points of numbers");
    must(widestring::to_ascii_lowercase(numbers) == widestring::to_ascii_lowercase(text), "to_ascii_lowercase of numbers");
    must(widestring::to_ascii_uppercase(numbers) == widestring::to_ascii_uppercase(text), "to_ascii_uppercase of numbers");
    must(widestring::to_utf8(numbers) == widestring::to_utf8(text), "to_utf8 of numbers");
    must(widestring::repair(numbers) == widestring::repair(text), "repair of numbers");
    for (const auto policy : policies)
        must(widestring::to_utf8_lossy(numbers, policy) == widestring::to_utf8_lossy(text, policy), "to_utf8_lossy of numbers");
}

template <class Numbers> void compare(std::u16string_view text, const Numbers &numbers) {
    compare_units(text, numbers);
    must(widestring::utf32_length(numbers) == widestring::utf32_length(text), "utf32_length of numbers");
    must(widestring::to_utf32(numbers) == widestring::to_utf32(text), "to_utf32 of numbers");
    must(widestring::to_wstring(numbers) == widestring::to_wstring(text), "to_wstring of numbers");
    for (const auto policy : policies)
        must(widestring::to_wstring_lossy(numbers, policy) == widestring::to_wstring_lossy(text, policy), "to_wstring_lossy of numbers");
}

template <class Numbers> void compare(std::u32string_view text, const Numbers &numbers) {
    compare_units(text, numbers);
    must(widestring::utf16_length(numbers) == widestring::utf16_length(text), "utf16_length of numbers");
    must(widestring::to_utf16(numbers) == widestring::to_utf16(text), "to_utf16 of numbers");
}

// Compares, for every eighth text, numbers as a pointer with a length, and since C++20 as a span and as a vector.
template <class Number, class View> void check_numbers(View text) {
    if (below(8) != 0)
        return;
    const std::vector<Number> numbers(text.begin(), text.end());
    using Char = typename View::value_type;
    compare(text, widestring::CodeUnits<Number, Char>(numbers.data(), numbers.size()));
#ifdef __cpp_lib_span
    compare(text, std::span<const Number>(numbers));
    compare(text, numbers);
#endif
}

void check(std::string_view text) {
    const Items items = items_of(text);
    check_faults(text, items);
    check_numbers<std::uint8_t>(text);
    const auto units = text_of<std::u16string>(items);
    const auto wide = text_of<std::u32string>(items);
    must(widestring::to_utf16(text) == units, "to_utf16");
    must(widestring::to_utf32(text) == wide, "to_utf32");
    must(widestring::to_wstring(text) == text_of<std::wstring>(items), "to_wstring");
    must(widestring::utf16_length(text) == length_of(units), "utf16_length");
    must(widestring::utf32_length(text) == length_of(wide), "utf32_length");
    for (const auto policy : policies) {
        must(widestring::to_utf16_lossy(text, policy) == lossy_of<std::u16string>(items, policy), "to_utf16_lossy");
        must(widestring::to_utf32_lossy(text, policy) == lossy_of<std::u32string>(items, policy), "to_utf32_lossy");
        must(widestring::to_wstring_lossy(text, policy) == lossy_of<std::wstring>(items, policy), "to_wstring_lossy");
    }
}

// Appends an element of any value.
template <class String> void put_any(String &text) {
    const std::uint32_t wild = below(3) == 0 ? 0xd800 + below(0x800) : below(2) == 0 ? below(0x120000) : static_cast<std::uint32_t>(numbers());
    text.push_back(static_cast<typename String::value_type>(wild));
}

// Returns the text with each ASCII letter in lower case, or in upper case.
template <class String> String in_case(String text, bool is_upper) {
    using Char = typename String::value_type;
    for (Char &c : text)
        if (is_upper ? c >= Char{'a'} && c <= Char{'z'} : c >= Char{'A'} && c <= Char{'Z'})
            c = static_cast<Char>(c ^ 0x20);
    return text;
}

// Changes the case of some letters, and in some texts one element.
template <class String> void change_letters(String &text) {
    using Char = typename String::value_type;
    const String lower = in_case(text, false);
    for (std::size_t at = 0; at < text.size(); at++)
        if (below(2) == 0 && lower[at] >= Char{'a'} && lower[at] <= Char{'z'})
            text[at] = static_cast<Char>(text[at] ^ 0x20);
    if (!text.empty() && below(3) == 0) {
        Char &c = text[below(static_cast<std::uint32_t>(text.size()))];
        c = static_cast<Char>(c ^ 0x20);
    }
}

// Checks searches and comparisons without regard to case, and the functions that write letters in the other case.
template <class View> void check_case(View text) {
    using String = std::basic_string<typename View::value_type>;
    const auto found = [](std::size_t at) { return at == String::npos ? std::nullopt : std::optional(at); };
    const String lower = in_case(String(text), false);
    must(widestring::to_ascii_lowercase(text) == lower, "to_ascii_lowercase");
    must(widestring::to_ascii_uppercase(text) == in_case(String(text), true), "to_ascii_uppercase");
    String needle(text.substr(below(static_cast<std::uint32_t>(text.size()) + 1), below(9))), other(text);
    change_letters(needle);
    change_letters(other);
    must(widestring::find_ignore_ascii_case(text, needle) == found(lower.find(in_case(needle, false))), "find_ignore_ascii_case");
    must(widestring::eq_ignore_ascii_case(text, needle) == (lower == in_case(needle, false)), "eq_ignore_ascii_case of a needle");
    must(widestring::eq_ignore_ascii_case(text, other) == (lower == in_case(other, false)), "eq_ignore_ascii_case");
}

// Returns the code points of a text: its characters, and the numbers of units that belong to none.
template <class View> std::vector<std::uint32_t> code_points_of(View text, const Items &items) {
    std::vector<std::uint32_t> all = items.item;
    for (std::size_t at = 0; at < all.size(); at++)
        if (all[at] == fault)
            all[at] = static_cast<std::uint32_t>(text[items.offset[at]]);
    return all;
}

// Checks comparisons with a text that differs from some element on, or does not.
template <class View> void check_order(View text, const Items &items) {
    using String = std::basic_string<typename View::value_type>;
    String other(text.substr(0, below(static_cast<std::uint32_t>(text.size()) + 1)));
    if (below(2) == 0)
        put_any(other);
    if (other.size() < text.size() && below(2) == 0)
        other.append(text.substr(other.size()));
    const auto left = code_points_of(text, items), right = code_points_of(View(other), items_of(View(other)));
    const int wanted = left < right ? -1 : left == right ? 0 : 1;
    must(widestring::compare_code_points(text, other) == wanted, "compare_code_points");
    must(widestring::compare_code_points(other, text) == -wanted, "compare_code_points the other way round");
}

// Checks the functions that are there for UTF-16 and for UTF-32: searches, comparisons, repair and conversion to UTF-8.
template <class View> void check_units(View text, const Items &items) {
    using String = std::basic_string<typename View::value_type>;
    check_faults(text, items);
    std::optional<std::size_t> number;
    for (std::size_t at = items.item.size(); at-- > 0;)
        if (items.item[at] == fault)
            number = at;
    must(widestring::first_fault_item(text) == number, "first_fault_item");
    must(widestring::repair(text) == lossy_of<String>(items, widestring::Lossy::each), "repair");
    must(widestring::to_utf8(text) == text_of<std::string>(items), "to_utf8");
    must(widestring::utf8_length(text) == length_of(text_of<std::string>(items)), "utf8_length");
    for (const auto policy : policies)
        must(widestring::to_utf8_lossy(text, policy) == lossy_of<std::string>(items, policy), "to_utf8_lossy");
    const auto found = [](std::size_t at) { return at == View::npos ? std::nullopt : std::optional(at); };
    const std::size_t at = below(static_cast<std::uint32_t>(text.size()) + 1);
    const View needle = text.substr(at, below(9));
    must(widestring::find(text, needle) == found(text.find(needle)), "find of a needle");
    must(widestring::find(needle, text) == found(needle.find(text)), "find of a longer needle");
    must(widestring::rfind(text, needle) == found(text.rfind(needle)), "rfind");
    must(widestring::rfind(needle, text) == found(needle.rfind(text)), "rfind of a longer needle");
    must(widestring::find(text, typename View::value_type{0x7a}) == found(text.find(0x7a)), "find of a unit");
    must(widestring::first_nul(text) == found(text.find(typename View::value_type{0})), "first_nul");
    check_case(text);
    check_order(text, items);
}

void check_bytes(std::u16string_view text);

void check(std::u16string_view text) {
    const Items items = items_of(text);
    check_units(text, items);
    check_numbers<std::uint16_t>(text);
    must(widestring::to_utf32(text) == text_of<std::u32string>(items), "to_utf32");
    must(widestring::to_wstring(text) == text_of<std::wstring>(items), "to_wstring");
    must(widestring::utf32_length(text) == length_of(text_of<std::u32string>(items)), "utf32_length");
    for (const auto policy : policies)
        must(widestring::to_wstring_lossy(text, policy) == lossy_of<std::wstring>(items, policy), "to_wstring_lossy");
    check_bytes(text);
}

std::string bytes_of(std::u16string_view text, widestring::Order order) {
    std::string bytes;
    for (const char16_t unit : text) {
        const char low = static_cast<char>(unit), high = static_cast<char>(unit >> 8);
        bytes.push_back(order == widestring::Order::little ? low : high);
        bytes.push_back(order == widestring::Order::little ? high : low);
    }
    return bytes;
}

// Checks the functions for UTF-16 in bytes, with or without half a unit at the end, in one chunk and in two, the second
// of which starts with the bytes that the first left.
void check_bytes(std::u16string_view text) {
    const Items items = items_of(text);
    const auto order = below(2) == 0 ? widestring::Order::little : widestring::Order::big;
    const std::string whole = bytes_of(text, order), bytes = whole + std::string(below(2), 'a');
    const bool is_odd = bytes.size() > whole.size();
    const auto strict = is_odd ? std::nullopt : text_of<std::string>(items);
    must(widestring::utf16_bytes_to_utf8(std::string_view(bytes), order) == strict, "utf16_bytes_to_utf8");
    must(widestring::utf16_bytes_first_fault(bytes, order) == widestring::first_fault(text), "utf16_bytes_first_fault");
    const bool is_high = !text.empty() && (text.back() & 0xfc00) == 0xd800;
    must(widestring::utf16_bytes_complete(bytes, order) == whole.size() - (is_high ? 2 : 0), "utf16_bytes_complete");
    must(widestring::utf16_bytes_end_in_fault(bytes, order, true) == (items.item.empty() || items.item.back() == fault), "utf16_bytes_end_in_fault");
    must(widestring::utf16_bytes_order(bytes_of(u"\xfeff", order) + bytes) == order, "utf16_bytes_order");
    must(widestring::utf16_bytes_order("ab") == std::nullopt, "utf16_bytes_order of no BOM");
    const std::string_view all = bytes;
    const auto cut = widestring::utf16_bytes_complete(all.substr(0, below(static_cast<std::uint32_t>(all.size()) + 1)), order);
    const bool after = widestring::utf16_bytes_end_in_fault(all.substr(0, cut), order);
    for (const auto policy : policies) {
        const auto wanted = lossy_of<std::string>(items, policy);
        must(widestring::utf16_bytes_to_utf8_lossy(bytes, order, policy) == wanted, "utf16_bytes_to_utf8_lossy");
        const auto prefix = widestring::utf16_bytes_to_utf8_lossy(all.substr(0, cut), order, policy);
        must(prefix + widestring::utf16_bytes_to_utf8_lossy(all.substr(cut), order, policy, after) == wanted, "utf16_bytes_to_utf8_lossy in chunks");
    }
}

void check(std::u32string_view text) {
    const Items items = items_of(text);
    check_units(text, items);
    check_numbers<std::uint32_t>(text);
    must(widestring::to_utf16(text) == text_of<std::u16string>(items), "to_utf16");
    must(widestring::utf16_length(text) == length_of(text_of<std::u16string>(items)), "utf16_length");
}

// Checks the functions for a string of wchar_t, which is UTF-32.
void check(std::wstring_view text) {
    const Items items = items_of(text);
    check_units(text, items);
    must(widestring::to_utf16(text) == text_of<std::u16string>(items), "to_utf16 of wchar_t");
    must(widestring::utf16_length(text) == length_of(text_of<std::u16string>(items)), "utf16_length of wchar_t");
}

// Lengths at and around those at which the conversions split a text.
const std::size_t lengths[] = {507,  508,  509,  510,  511,  512,   513,   4091,  4092,  4093,  4094,  4095,
                               4096, 4097, 5000, 20000, 65527, 65533, 65534, 65535, 65536, 65537, 70000};

// Checks texts of several chunks whose rest differs from their beginning: with faults only, or with shorter characters.
void check_longer() {
    for (const std::size_t length : lengths) {
        check(std::string(length, '\x80') + "a");
        check(std::u16string(length, 0xd800) + u"\xdc00");
        check(std::u32string(length, 0xd800) + U"a");
        check(std::u16string(length, u'a') + u"\xd83d\xde00\xde00\xde00");
        check(std::u16string(length, u'a') + u"\xd83d\xd83d\xde00\xde00");
        check(std::string(length, 'a') + "\xf0\x9f\x98\x80\x80\x80\x80\x80\x80");
        check(std::string(length, 'a') + std::string(length, '\xf0'));
        check(std::u16string(length, u'a') + std::u16string(length, 0x8a9e) + u"\xd83d\xde00");
        check(std::u32string(length, U'a') + std::u32string(length, 0x1f600));
        check(std::wstring(length, L'a') + std::wstring(length, 0x1f600));
        check(std::wstring(length, 0xd800) + L"a");
    }
}

// Returns a random character, of ASCII or below a bound.
std::uint32_t random_character(std::uint32_t bound) {
    const std::uint32_t c = below(4) == 0 ? below(bound) : below(0x80);
    return is_scalar(c) ? c : 0x7a;
}

template <class String> String random_text() {
    static const std::uint32_t bounds[] = {0x80, 0x800, 0x10000, 0x110000};
    const std::uint32_t most = below(128) == 0 ? 15000 : below(16) == 0 ? 600 : below(4) == 0 ? 150 : 20;
    const std::uint32_t length = below(most), bound = bounds[below(4)];
    const std::uint32_t faults = below(2) == 0 ? 0 : 1 + below(20);
    String text;
    while (text.size() < length)
        below(20) < faults ? put_any(text) : put(text, random_character(bound));
    return text;
}

// Checks texts of each type that a function takes, without a conversion by the caller.
void check_types() {
    const std::uint16_t units[] = {0x61, 0xd83d, 0xde00};
    const std::uint32_t wide[] = {0x61, 0x1f600};
    const std::uint8_t bytes[] = {0x61, 0xf0, 0x9f, 0x98, 0x80};
    const std::string text(reinterpret_cast<const char *>(bytes), 5);
    must(widestring::to_utf8({units, 3}) == text, "to_utf8 of a pointer to units");
    must(widestring::to_utf8({wide, 2}) == text, "to_utf8 of a pointer to wide units");
    must(widestring::to_utf16({bytes, 5}) == u"a\xd83d\xde00", "to_utf16 of a pointer to bytes");
    must(widestring::to_utf8({u"a\0b", 3}) == std::string("a\0b", 3), "to_utf8 of a literal and a length");
    must(widestring::to_utf8(u"a") == "a" && widestring::to_utf8(U"a") == "a" && widestring::to_utf8(L"a") == "a", "to_utf8 of literals");
    must(widestring::to_wstring("a") == L"a" && widestring::to_wstring(u"a") == L"a", "to_wstring of literals");
    must(widestring::repair(L"\xd800") == L"\xfffd", "repair of a literal");
    must(widestring::find(std::wstring(L"abc"), L'c') == std::optional<std::size_t>(2), "find in a string of wchar_t");
    must(widestring::find(std::u16string(u"abc"), u"c") == std::optional<std::size_t>(2), "find of a literal");
    must(widestring::rfind(L"abca", L"a") == std::optional<std::size_t>(3), "rfind of a literal");
    must(widestring::find_ignore_ascii_case(u"xABC", u"abc") == std::optional<std::size_t>(1), "find_ignore_ascii_case of a literal");
    must(widestring::eq_ignore_ascii_case(U"aB", U"Ab") && !widestring::eq_ignore_ascii_case(u"a", u"b"), "eq_ignore_ascii_case of literals");
    must(widestring::compare_code_points(u"\xd83d\xde00", u"\xff21") > 0, "compare_code_points of literals");
    must(widestring::to_ascii_lowercase(L"A\xc4") == L"a\xc4" && widestring::to_ascii_uppercase(u"a") == u"A", "letters of literals");
#ifdef __cpp_char8_t
    must(widestring::to_utf16(u8"a") == u"a" && widestring::to_utf16(widestring::view(u8"a")) == u"a", "to_utf16 of char8_t");
#endif
#ifdef __cpp_lib_span
    must(widestring::to_utf8(units) == text && widestring::to_utf8(wide) == text, "to_utf8 of arrays");
    must(widestring::to_utf16(bytes) == u"a\xd83d\xde00" && widestring::to_utf16(widestring::view(bytes)) == u"a\xd83d\xde00", "to_utf16 of arrays");
    std::vector<std::uint16_t> grown(units, units + 3);
    must(widestring::to_utf8(std::span(grown)) == text && widestring::repair(grown) == u"a\xd83d\xde00", "spans that may be written through");
#endif
}

#ifdef __cpp_lib_span
// No view of characters refers to numbers of 16 or of 32 bits: its reader would read them by another type.
template <class Numbers, class = void> struct HasView : std::false_type {};
template <class Numbers> struct HasView<Numbers, std::void_t<decltype(widestring::view(std::declval<Numbers>()))>> : std::true_type {};
static_assert(!HasView<const std::vector<std::uint16_t> &>::value && !HasView<const std::vector<std::uint32_t> &>::value);
#endif
template <class Text> constexpr bool is_text = std::is_constructible_v<widestring::Utf16Units, Text> || std::is_constructible_v<widestring::Utf32Units, Text>;
static_assert(!is_text<const std::vector<std::int16_t> &> && !is_text<const std::vector<float> &> && !is_text<std::string> && !is_text<int>);

// Returns 100 times the first character that a second call reads, plus the one that a first call reads. Between the
// calls the character is changed through a pointer to numbers, and the second call must read the change.
template <class Text> std::uint32_t seen_twice(std::uint16_t *to, const Text &text) {
    to[0] = 7;
    const std::uint32_t first = widestring::to_utf32(text).value().front();
    to[0] = 9;
    return 100 * widestring::to_utf32(text).value().front() + first;
}

// Returns whether calls read what was written through a pointer to numbers before them, within the first chunk of a
// text and where chunks meet.
template <class Text> bool is_read_anew(std::uint16_t *to, std::size_t length, const Text &text) {
    bool is_so = true;
    for (const std::size_t at : {0, 1, 510, 511, 512, 4094, 4095, 4096, 4198}) {
        to[at] = 0xd83d;
        to[at + 1] = 0xde00;
        is_so = is_so && widestring::to_utf8(text).value().size() == length + 2 && widestring::find(text, 0xd83d) == at;
        to[at] = to[at + 1] = 0x61;
        is_so = is_so && widestring::to_utf8(text).value().size() == length && !widestring::find(text, 0xd83d);
    }
    return is_so;
}

void check_writes() {
    std::vector<std::uint16_t> numbers(4200, 0x61);
    const widestring::Utf16Units units(numbers.data(), numbers.size());
    must(seen_twice(numbers.data(), units) == 907, "writes between two calls");
    numbers[0] = 0x61;
    must(is_read_anew(numbers.data(), numbers.size(), units), "writes where chunks meet");
#ifdef __cpp_lib_span
    const std::span<const std::uint16_t> span = numbers;
    must(seen_twice(numbers.data(), span) == 907, "writes between two calls on a span");
    numbers[0] = 0x61;
    must(is_read_anew(numbers.data(), numbers.size(), span), "writes where chunks of a span meet");
#endif
}

// Appends a number in this many bytes of an order.
void put_bytes(std::string &bytes, std::uint32_t number, int length, bool is_big) {
    for (int at = 0; at < length; at++)
        bytes.push_back(static_cast<char>(number >> 8 * (is_big ? length - 1 - at : at)));
}

// Returns a text in a scheme, of which UTF-16 and UTF-32 are little-endian.
std::string scheme_of(const std::u32string &text, widestring::Scheme scheme) {
    using widestring::Scheme;
    std::string bytes;
    for (const char32_t c : text) {
        if (scheme == Scheme::utf8 || scheme == Scheme::wtf8)
            put(bytes, c);
        else if (scheme == Scheme::utf32 || scheme == Scheme::utf32le || scheme == Scheme::utf32be)
            put_bytes(bytes, c, 4, scheme == Scheme::utf32be);
        else {
            std::u16string units;
            put(units, c);
            for (const char16_t unit : units)
                put_bytes(bytes, unit, 2, scheme == Scheme::utf16be);
        }
    }
    return bytes;
}

constexpr widestring::Scheme schemes[] = {widestring::Scheme::utf8,    widestring::Scheme::utf16le, widestring::Scheme::utf16be, widestring::Scheme::utf16,
                                          widestring::Scheme::utf32le, widestring::Scheme::utf32be, widestring::Scheme::utf32,   widestring::Scheme::wtf8};

// Checks a conversion between two random schemes in random pieces, into little space.
void check_pieces() {
    const auto from = schemes[below(8)], to = schemes[below(8)];
    const bool bom = below(2) == 0;
    std::u32string text;
    for (std::uint32_t left = below(9); left > 0; left--)
        for (const std::uint32_t c = below(below(2) == 0 ? 0x80 : 0x110000); is_scalar(c);) {
            text.push_back(c == 0xfeff ? U'a' : c);
            break;
        }
    const std::string bytes = scheme_of(text, from), wanted = scheme_of(bom ? U"\ufeff" + text : text, to);
    widestring::Converter converter(from, to, std::nullopt, bom);
    std::string written;
    for (std::size_t at = 0, is_done = 0; is_done == 0;) {
        char buffer[24];
        const std::size_t end = at + below(static_cast<std::uint32_t>(bytes.size() - at) + 1), capacity = 8 + below(17);
        const widestring::Part part = converter.push(std::string_view(bytes).substr(at, end - at), buffer, capacity, end == bytes.size());
        must(part.read <= end - at && part.written <= capacity, "push");
        written.append(buffer, part.written);
        is_done = end == bytes.size() && converter.state().end == WIDE_NEEDS_INPUT;
        at += part.read;
    }
    must(written == wanted, "pieces");
    must(converter.state().items == text.size() && converter.state().kept == 0, "state");
    std::string appended;
    widestring::Converter again(from, to, widestring::Lossy::each, bom);
    must(again.append(bytes, appended, true) == bytes.size() && appended == wanted, "append");
}

// Checks the calls on any units of UTF-16 and UTF-32 that the others do not.
void check_forms() {
    const auto units = random_text<std::u16string>();
    const auto wide = random_text<std::u32string>();
    const Items items = items_of(std::u16string_view(units)), wide_items = items_of(std::u32string_view(wide));
    const auto faults = [](const Items &all) {
        std::size_t count = 0;
        for (const std::uint32_t item : all.item)
            count += item == fault;
        return count;
    };
    must(widestring::fault_count(units) == faults(items) && widestring::fault_count(wide) == faults(wide_items), "fault_count");
    for (const auto policy : policies) {
        must(widestring::to_utf32_lossy(units, policy) == lossy_of<std::u32string>(items, policy), "to_utf32_lossy of UTF-16");
        must(widestring::to_utf16_lossy(wide, policy) == lossy_of<std::u16string>(wide_items, policy), "to_utf16_lossy of UTF-32");
    }
    std::string wtf8;
    for (const std::uint32_t c : code_points_of(std::u16string_view(units), items))
        put(wtf8, c);
    must(widestring::to_wtf8(units) == wtf8 && widestring::wtf8_to_utf16(wtf8) == units, "WTF-8");
    must(!widestring::wtf8_first_fault(wtf8) && widestring::wtf8_first_fault(wtf8 + '\xff') == wtf8.size(), "wtf8_first_fault");
    for (const auto order : {widestring::Order::little, widestring::Order::big}) {
        const bool is_big = order == widestring::Order::big;
        std::string bytes, wide_bytes;
        for (const char16_t unit : units)
            put_bytes(bytes, unit, 2, is_big);
        for (const char32_t unit : wide)
            put_bytes(wide_bytes, unit, 4, is_big);
        must(widestring::to_bytes(units, order) == bytes && widestring::utf16_from_bytes(bytes, order) == units, "bytes of UTF-16");
        must(widestring::to_bytes(wide, order) == wide_bytes && widestring::utf32_from_bytes(wide_bytes, order) == wide, "bytes of UTF-32");
        must(!widestring::utf16_from_bytes(bytes + 'a', order), "half a unit");
    }
    must(widestring::to_bytes(widestring::swap_bytes(units), widestring::Order::big) == widestring::to_bytes(units, widestring::Order::little), "swap_bytes");
    std::u16string repaired = units;
    must(widestring::repair_in_place(repaired) == faults(items) && repaired == widestring::repair(units), "repair_in_place");
    const std::size_t offset = below(static_cast<std::uint32_t>(units.size()) + 2);
    std::size_t floor = 0;
    for (std::size_t at = 0; at <= items.offset.size(); at++) {
        const std::size_t start = at < items.offset.size() ? items.offset[at] : units.size();
        floor = start <= offset ? start : floor;
    }
    must(widestring::floor_char_boundary(units, offset) == floor, "floor_char_boundary");
    char buffer[8];
    const std::size_t capacity = below(9);
    const widestring::Part part = widestring::to_utf8_part(units, buffer, capacity);
    const auto read = std::u16string_view(units).substr(0, part.read);
    must(widestring::to_utf8(read) == std::string(buffer, part.written) && part.written <= capacity, "to_utf8_part");
    must(part.read == units.size() || widestring::first_fault(units) == part.read || part.written + 4 > capacity, "as much as fits");
    bool is_ascii = true;
    for (const char16_t unit : units)
        is_ascii = is_ascii && unit < 0x80;
    must(widestring::is_ascii(units) == is_ascii, "is_ascii");
}

} // namespace

int main(int count, char **arguments) {
    const long texts = count > 1 ? std::atol(arguments[1]) : 100000, seed = count > 2 ? std::atol(arguments[2]) : 1;
    numbers.seed(static_cast<std::uint64_t>(seed));
    must(widestring::version() == WIDESTRING_VERSION_NUMBER, "version");
    check_types();
    check_writes();
    // Empty views have no memory.
    check(std::string_view());
    check(std::u16string_view());
    check(std::u32string_view());
    check(std::wstring_view());
    check_longer();
    for (long at = 0; at < texts; at++) {
        check(random_text<std::string>());
        check(random_text<std::u16string>());
        check(random_text<std::u32string>());
        check(random_text<std::wstring>());
        check_pieces();
        check_forms();
    }
    std::cout << "seed " << seed << ": every call agrees on " << texts << " texts of each kind\n";
}
