// Prints the offset of the first fault of a text in UTF-16, and the text in UTF-8 under each policy.
#include <iostream>
#include <widestring.hpp>

int main() {
    const std::u16string units = {u'H', u'i', 0xd83d, 0xde00, 0xdc00, 0xdc00};
    if (const auto offset = widestring::first_fault(units))
        std::cout << "a fault at unit " << *offset << '\n';
    if (const auto text = widestring::to_utf8(units))
        std::cout << *text << '\n';
    for (const auto policy : {widestring::Lossy::each, widestring::Lossy::run, widestring::Lossy::skip})
        std::cout << widestring::to_utf8_lossy(units, policy) << '\n';
}
