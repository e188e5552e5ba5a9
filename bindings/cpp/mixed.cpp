// Two object files of one program: bindings/check compiles this file twice, with different options, and links both. The
// object with `main` calls the other one.
#include <widestring.hpp>

std::u16string elsewhere(std::string_view text);

#ifdef WITHOUT_MAIN
std::u16string elsewhere(std::string_view text) {
    return widestring::to_utf16(text).value();
}
#else
// A program may define an explicit instantiation only once. As this program defines one, the header must not.
#if !defined(WIDESTRING_STD_ONLY) && !defined(__cpp_lib_string_resize_and_overwrite) && _GLIBCXX_USE_CXX11_ABI && _GLIBCXX_RELEASE <= 13
template struct widestring::detail::SetLength<std::string, &std::string::_M_set_length>;
#endif

int main() {
    const std::string text(70000, 'a');
    const bool is_wide = widestring::to_utf32(text) == std::u32string(70000, U'a') && widestring::to_wstring(text) == std::wstring(70000, L'a');
    return is_wide && elsewhere(text) == std::u16string(70000, u'a') ? 0 : 1;
}
#endif
