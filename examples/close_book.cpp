// A C++ host: closes the book in the file it is given, and prints the closed book's rows. It prints what examples/close_book.c prints.
#include <cstdint>
#include <cstdlib>
#include <fstream>
#include <iostream>
#include <vector>
#include "trackvesper.h"

static std::uint64_t number_at(const std::vector<std::uint8_t> &bytes, std::size_t at, std::size_t width)
{
    std::uint64_t number = 0;
    for (std::size_t i = 0; i < width; i++)
        number = number * 256 + bytes.at(at + i);
    return number;
}

static void print_book(const std::vector<std::uint8_t> &book)
{
    // Tag and length, and as much as the length says: 7 bytes, or 8 in edition 2.
    const std::size_t head = 3 + static_cast<std::size_t>(number_at(book, 1, 2)), field = 17;
    std::cout << "closed " << number_at(book, 4, 1) << ' ' << number_at(book, 5, 2) << ' ' << (book.size() - head) / field << '\n';
    for (std::size_t at = head; at + field <= book.size(); at += field)
        std::cout << number_at(book, at + 3, 2) << ' ' << number_at(book, at + 5, 2) << ' ' << number_at(book, at + 7, 2) << ' '
                  << number_at(book, at + 9, 8) << '\n';
}

int main(int argc, char **argv)
{
    std::ifstream file;
    if (argc == 2)
        file.open(argv[1], std::ios::binary);
    if (!file.is_open()) {
        std::cerr << "usage: close_book FILE\n";
        return EXIT_FAILURE;
    }
    // One byte more than the longest book, so that a longer one is refused as such.
    std::vector<std::uint8_t> book(TRACKVESPER_MOST_INPUT + 1);
    file.read(reinterpret_cast<char *>(book.data()), static_cast<std::streamsize>(book.size()));
    book.resize(static_cast<std::size_t>(file.gcount()));

    std::vector<std::uint8_t> out(TRACKVESPER_MOST_CLOSED_BOOK);
    // data() of an empty vector may be NULL, which the calls do not take.
    const std::uint8_t nothing = 0;
    const std::uint64_t answer = trackvesper_close_book(book.empty() ? &nothing : book.data(), book.size(), out.data(), out.size());
    if (trackvesper_number(answer) != TRACKVESPER_DONE) {
        std::cout << "refused " << trackvesper_number(answer) << ' ' << trackvesper_rest(answer) << '\n';
        return EXIT_SUCCESS;
    }
    out.resize(trackvesper_rest(answer));
    print_book(out);
    return EXIT_SUCCESS;
}
