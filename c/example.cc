// Writes the words that the pattern finds in the lines of standard input, and their number in each line: example PATTERN
#include "bites.hpp"
#include <iostream>
#include <string>

int main(int argc, char **argv) {
    if (argc != 2) {
        std::cerr << "usage: example PATTERN\n";
        return 2;
    }
    try {
        BitesRegex regex(argv[1]);
        for (std::string line; std::getline(std::cin, line);) {
            size_t count = 0;
            for (BitesMatch match : regex.matches(line)) {
                std::cout << match.text << " ";
                count++;
            }
            std::cout << count << "\n";
        }
        return 0;
    } catch (const BitesError &error) {
        std::cerr << "example: " << error.what() << "\n";
        return 2;
    }
}
