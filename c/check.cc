// Tests the calls of bites.hpp: results that are known, refusals, copies and moves, and what must not compile. It stops at the first
// wrong result. check_second.cc is the second file of the program.
#include "bites.hpp"
#include <algorithm>
#include <cstdlib>
#include <iostream>
#include <iterator>
#include <string>
#include <string_view>
#include <type_traits>
#include <utility>
#include <vector>
#if __cplusplus >= 202002L
#include <ranges>
#endif

uint32_t (*clone_of_second_file())(bites *, bites *);
bool matches_in_second_file(std::string_view pattern, std::string_view haystack);

#define CHECK(holds) ((holds) ? (void)0 : wrong(#holds, __LINE__))

static void wrong(const char *what, int line) {
    std::cerr << "check.cc:" << line << ": not so: " << what << "\n";
    std::exit(1);
}

// Whether a call compiles for a regex and a haystack of these types.
#define COMPILES(Name, call) \
    template <class Regex, class Text, class = void> struct Name : std::false_type {}; \
    template <class Regex, class Text> \
    struct Name<Regex, Text, std::void_t<decltype(std::declval<Regex>().call(std::declval<Text>()))>> : std::true_type {};
COMPILES(CanFind, find)
COMPILES(CanCapture, captures)
COMPILES(CanMatch, matches)
COMPILES(CanTell, is_match)

// What is returned refers to the haystack, so that may be no temporary string.
template <template <class, class, class = void> class Call> constexpr bool is_for_texts_that_live() {
    return Call<BitesRegex &, std::string &>::value && Call<BitesRegex &, const std::string &>::value && Call<BitesRegex &, const char *>::value
        && Call<BitesRegex &, const char (&)[3]>::value && Call<BitesRegex &, std::string_view>::value
        && !Call<BitesRegex &, std::string>::value && !Call<BitesRegex &, const std::string>::value;
}
static_assert(is_for_texts_that_live<CanFind>() && is_for_texts_that_live<CanCapture>() && is_for_texts_that_live<CanMatch>());
static_assert(CanTell<BitesRegex &, std::string>::value && CanTell<BitesRegex, std::string>::value);
// The matches refer to the regex too.
static_assert(!CanMatch<BitesRegex, std::string &>::value && !CanMatch<BitesRegex, std::string_view>::value);
static_assert(CanFind<BitesRegex, std::string &>::value && CanCapture<BitesRegex, std::string &>::value);

using Iterator = BitesMatches::iterator;
static_assert(std::is_same_v<decltype(*std::declval<Iterator &>()++), const BitesMatch &>);
#if __cplusplus >= 202002L
static_assert(std::input_iterator<Iterator> && std::sentinel_for<Iterator, Iterator>);
static_assert(std::ranges::input_range<BitesMatches>);
#endif

static std::vector<std::string> found(BitesRegex &regex, const std::string &haystack) {
    std::vector<std::string> texts;
    for (BitesMatch match : regex.matches(haystack)) texts.emplace_back(match.text);
    return texts;
}

static void searches() {
    BitesRegex date("(?<year>[0-9]{4})-([0-9]{2})(x)?");
    const std::string text = "in 2010-03, 2011-04";
    CHECK(date.is_match(text) && date.is_match(text, 4) && !date.is_match(text, 13) && !date.is_match("2010"));
    CHECK(date.is_full_match("2010-03") && !date.is_full_match(text));
    std::optional<BitesMatch> match = date.find(text, 4);
    CHECK(match && match->start == 12 && match->end == 19 && match->text == "2011-04");
    CHECK(!date.find(text, 13) && !date.find(text, 99));
    std::vector<std::optional<BitesMatch>> groups = date.captures(text);
    CHECK(groups.size() == 4 && groups[1]->text == "2010" && groups[2]->start == 8 && !groups[3]);
    CHECK(date.captures("none").empty());
    CHECK(date.group_index("year") == 1u && !date.group_index("month"));
    CHECK((found(date, text) == std::vector<std::string>{"2010-03", "2011-04"}));
}

static void empty_matches() {
    BitesRegex regex("x*");
    CHECK((found(regex, "axb") == std::vector<std::string>{"", "x", ""}));
    CHECK(found(regex, "").size() == 1 && found(regex, std::string("\0x", 2)).size() == 2);
}

static void iterators() {
    BitesRegex word("[a-z]+");
    const std::string text = "one two three";
    // They outlive what `matches` returned.
    Iterator at = word.matches(text).begin(), end = word.matches(text).end();
    CHECK(at != end && (at++)->text == "one" && at->text == "two" && (*at++).start == 4);
    CHECK(at->text == "three" && ++at == end && at == Iterator());
    BitesMatches all = word.matches(text);
    CHECK(std::count_if(all.begin(), all.end(), [](const BitesMatch &match) { return match.text.size() == 3; }) == 2);
    std::vector<BitesMatch> copied(all.begin(), all.end());
    CHECK(copied.size() == 3 && copied[2].start == 8);
}

// Inline functions of bites.h are the same in both files.
static void files() {
    CHECK(clone_of_second_file() == bites_clone);
    CHECK(matches_in_second_file("b+", "abb") && !matches_in_second_file("b+", "a"));
}

static void replacements() {
    BitesRegex date("([0-9]{4})-([0-9]{2})");
    CHECK(date.replace("2010-03, 2011-04", "$2/$1") == "03/2010, 04/2011");
    CHECK(date.replace("2010-03, 2011-04", "$$", 1) == "$, 2011-04" && date.replace("none", "x") == "none");
    CHECK(BitesRegex("a").replace(std::string(300, 'a'), "bcd").size() == 900);
}

static void copies() {
    BitesRegex one("a+"), two("b");
    BitesRegex copy(one), moved(std::move(one));
    CHECK(copy.find("xaa")->end == 3 && moved.find("xaa")->end == 3);
    two = copy;
    CHECK(two.is_match("a") && !two.is_match("b"));
    two = std::move(moved);
    CHECK(two.is_match("a") && copy.is_match("a"));
}

static void tables() {
    BitesRegex regex("(a+)b");
    CHECK(regex.table_size().lists == 0);
    regex.prepare();
    CHECK(regex.table_size().lists > 0 && regex.table_size().bytes > 0 && regex.table_size().is_whole == 1);
    BitesRegex copy(regex);
    CHECK(copy.table_size().lists > 0 && copy.captures("xaab")[1]->end == 3);
    copy.prepare(0);
    CHECK(copy.table_size().lists == 0 && regex.table_size().lists > 0 && copy.find("xaab")->end == 4);
}

// So a program can keep the last error.
static_assert(std::is_copy_assignable_v<BitesError>);

// Returns the code of what the call throws, or BITES_DONE if it throws nothing.
template <class Call> static uint32_t thrown(Call call) {
    try {
        call();
        return BITES_DONE;
    } catch (const BitesError &error) {
        return error.code;
    }
}

static void moved() {
    BitesRegex regex("(?<a>a)"), other(std::move(regex));
    CHECK(thrown([&] { regex.prepare(); }) == BITES_EMPTY_HANDLE && thrown([&] { regex.table_size(); }) == BITES_EMPTY_HANDLE);
    CHECK(thrown([&] { regex.is_match("a"); }) == BITES_EMPTY_HANDLE && thrown([&] { regex.is_full_match("a"); }) == BITES_EMPTY_HANDLE);
    CHECK(thrown([&] { regex.find("a"); }) == BITES_EMPTY_HANDLE && thrown([&] { regex.captures("a"); }) == BITES_EMPTY_HANDLE);
    CHECK(thrown([&] { regex.group_index("a"); }) == BITES_EMPTY_HANDLE && thrown([&] { regex.replace("a", "b"); }) == BITES_EMPTY_HANDLE);
    CHECK(thrown([&] { BitesRegex copy(regex); }) == BITES_EMPTY_HANDLE && thrown([&] { other.is_match("a"); }) == BITES_DONE);
}

static uint32_t refusal(const std::string &pattern, uint32_t flags, const std::string &haystack) {
    try {
        BitesRegex regex(pattern, flags);
        regex.is_match(haystack);
        return BITES_DONE;
    } catch (const BitesError &error) {
        CHECK(error.what()[0] != '\0');
        return error.code;
    }
}

static void refusals() {
    CHECK(refusal("(a", 0, "") == 4 && refusal("a", BITES_TEXT, "\xff") == BITES_NOT_UTF8 && refusal("a", 0, "\xff") == BITES_DONE);
    try {
        BitesRegex("a", 0, 0);
        CHECK(false);
    } catch (const BitesError &error) {
        CHECK(error.what() == std::string("compiled regex exceeded size limit"));
    }
}

int main() {
    searches();
    empty_matches();
    iterators();
    files();
    replacements();
    copies();
    moved();
    tables();
    refusals();
    return 0;
}
