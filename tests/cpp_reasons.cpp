// Executes the statements of standard input, which end with a byte 255 each, and writes of each whether it was refused, its reasons behind a
// byte 254 each, and a byte 255: no text in UTF-8 has these bytes.
#include "sqlkeep.hpp"

#include <iostream>
#include <iterator>

int main() {
    const std::string texts(std::istreambuf_iterator<char>(std::cin), {});
    keep::session session;
    for (std::size_t from = 0; from < texts.size(); from = texts.find('\xff', from) + 1) {
        try {
            session.execute(texts.substr(from, texts.find('\xff', from) - from));
            std::cout << "accepted";
        } catch (const keep::refused &refused) {
            std::cout << "refused";
            for (const std::string &reason : refused.why().reasons) std::cout << '\xfe' << reason;
        } catch (const keep::usage_error &) {
            std::cout << "accepted";
        }
        std::cout << '\xff';
    }
}
