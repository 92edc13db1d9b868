// The second file of the program of check.cc, which uses the inline functions of bites.h and bites.hpp too.
#include "bites.hpp"

uint32_t (*clone_of_second_file())(bites *, bites *);
bool matches_in_second_file(std::string_view pattern, std::string_view haystack);

uint32_t (*clone_of_second_file())(bites *, bites *) { return bites_clone; }

bool matches_in_second_file(std::string_view pattern, std::string_view haystack) { return BitesRegex(pattern).is_match(haystack); }
