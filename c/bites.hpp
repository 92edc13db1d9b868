// The proved engine for regular expressions, for C++17: a regex that frees itself, and its matches by `for`.
//
//     BitesRegex word("[a-z]+");
//     for (BitesMatch match : word.matches("one two")) std::cout << match.text << "\n";
//
// Haystacks are bytes, and offsets count bytes. A search takes time in the order of the states of the regex times the bytes of
// the haystack behind `start`, and a search for groups takes that times the number of groups. `is_match`, `is_full_match`, `find`
// and a loop over matches allocate nothing. `captures` allocates its lists, and `replace` its text. One thread at a time may use
// a regex or copy it. So copy it for another thread before that thread starts; both then share the compiled program. A match
// points into its haystack, so the haystack must live as long, and a call that returns matches takes no temporary string.
// `bites.h` says more of each call.
#ifndef BITES_HPP
#define BITES_HPP
#include "bites.h"
#include <cstddef>
#include <cstdint>
#include <iterator>
#include <optional>
#include <stdexcept>
#include <string>
#include <string_view>
#include <utility>
#include <vector>

// A refusal. `what()` is its text, and `code` its number: 1 to 57 for a pattern, BITES_NOT_UTF8 for a pattern that is not UTF-8, or
// BITES_NO_MEMORY. For a regex made with BITES_TEXT it may be BITES_NOT_UTF8 or BITES_NOT_BORDER of a haystack. For a regex that was
// moved from it is BITES_EMPTY_HANDLE.
class BitesError : public std::runtime_error {
public:
    explicit BitesError(uint32_t number) : std::runtime_error(text(number)), code(number) {}

    uint32_t code;

private:
    static std::string text(uint32_t number) {
        char room[96];
        bites_message(number, room, sizeof room);
        return room;
    }
};

// A part of a haystack: its offsets, and what stands there.
struct BitesMatch {
    size_t start, end;
    std::string_view text;
};

class BitesMatches;

// A compiled pattern with the memory of its searches.
class BitesRegex {
    // With `&&` behind it this takes temporary strings alone.
    template <class Allocator> using Temporary = const std::basic_string<char, std::char_traits<char>, Allocator>;

public:
    // Compiles the pattern. Throws BitesError if it is refused, or out of memory.
    explicit BitesRegex(std::string_view pattern, uint32_t flags = 0, size_t size_limit = BITES_SIZE_LIMIT, uint32_t nest_limit = BITES_NEST_LIMIT) {
        own(bites_new(bytes(pattern), pattern.size(), flags, size_limit, nest_limit, &regex));
    }
    BitesRegex(const BitesRegex &other) { own(bites_clone(&other.regex, &regex)); }
    BitesRegex(BitesRegex &&other) noexcept : regex(std::exchange(other.regex, {})), cache(std::exchange(other.cache, {})) {}
    BitesRegex &operator=(BitesRegex other) noexcept {
        std::swap(regex, other.regex);
        std::swap(cache, other.cache);
        return *this;
    }
    ~BitesRegex() {
        bites_cache_free(&cache);
        bites_free(&regex);
    }

    // Makes a table with this limit, as bites_prepare does. Searches return the same, and mostly much sooner. They look for a literal
    // first, if each match holds one or begins with one of several. Copies share the table. Throws BitesError if out of memory, and
    // the regex is unchanged.
    void prepare(size_t dfa_size_limit = BITES_DFA_SIZE_LIMIT) {
        uint32_t code = bites_prepare(&regex, dfa_size_limit, &regex);
        if (code != BITES_DONE) throw BitesError(code);
    }

    // Returns how large the table is, as bites_table_size does: all zeros without one.
    bites_table table_size() {
        bites_table size = {0, 0, 0};
        uint32_t code = bites_table_size(&regex, &size);
        if (code != BITES_DONE) throw BitesError(code);
        return size;
    }

    // Returns whether a match begins at or after `start`.
    bool is_match(std::string_view haystack, size_t start = 0) {
        return found(bites_is_match_at(&regex, &cache, bytes(haystack), haystack.size(), start));
    }

    // Returns whether the whole haystack is a match.
    bool is_full_match(std::string_view haystack) {
        return found(bites_is_full_match(&regex, &cache, bytes(haystack), haystack.size()));
    }

    // Returns the first match that begins at or after `start`. The bytes before `start` count for assertions.
    std::optional<BitesMatch> find(std::string_view haystack, size_t start = 0) {
        bites_span span = {0, 0};
        if (!found(bites_find_at(&regex, &cache, bytes(haystack), haystack.size(), start, &span))) return std::nullopt;
        return part(haystack, span);
    }
    template <class Allocator> void find(Temporary<Allocator> &&haystack, size_t start = 0) = delete;

    // Returns the groups of that match, from group 0 on, which is the match. A group that does not participate has no value. Returns
    // an empty list if nothing matches.
    std::vector<std::optional<BitesMatch>> captures(std::string_view haystack, size_t start = 0) {
        std::vector<bites_span> spans(bites_captures_len(&regex));
        std::vector<std::optional<BitesMatch>> groups;
        if (!found(bites_captures_at(&regex, &cache, bytes(haystack), haystack.size(), start, spans.data(), spans.size()).code)) return groups;
        for (bites_span span : spans) groups.push_back(span.start == BITES_NONE ? std::nullopt : std::optional<BitesMatch>(part(haystack, span)));
        return groups;
    }
    template <class Allocator> void captures(Temporary<Allocator> &&haystack, size_t start = 0) = delete;

    // Returns the number of the group of this name, if there is one.
    std::optional<size_t> group_index(std::string_view name) {
        bites_size answer = bites_group_index(&regex, bytes(name), name.size());
        if (answer.code == BITES_EMPTY_HANDLE) throw BitesError(answer.code);
        return answer.code == BITES_DONE ? std::optional<size_t>(answer.size) : std::nullopt;
    }

    // Returns all matches in turn. The regex and the haystack must live as long as the loop, so neither may be a temporary. Other
    // searches of the regex may come between two matches.
    BitesMatches matches(std::string_view haystack) &;
    BitesMatches matches(std::string_view haystack) && = delete;
    template <class Allocator> void matches(Temporary<Allocator> &&haystack) & = delete;

    // Returns the haystack with its first `limit` matches, or all for 0, replaced by what the template stands for: $1, $name and
    // ${name} stand for groups, and $$ for a $.
    std::string replace(std::string_view haystack, std::string_view replacement, size_t limit = 0) {
        std::string text(haystack.size() + haystack.size() / 4 + 64, '\0');
        bites_size answer = replace_into(haystack, replacement, limit, text);
        if (answer.code == BITES_TOO_SMALL) {
            text.resize(answer.size);
            answer = replace_into(haystack, replacement, limit, text);
        }
        if (!found(answer.code)) return std::string(haystack);
        text.resize(answer.size);
        return text;
    }

private:
    friend class BitesMatches;

    static const uint8_t *bytes(std::string_view text) { return reinterpret_cast<const uint8_t *>(text.data()); }

    static BitesMatch part(std::string_view haystack, bites_span span) {
        return {span.start, span.end, haystack.substr(span.start, span.end - span.start)};
    }

    static bool found(uint32_t code) {
        if (code != BITES_MATCH && code != BITES_NO_MATCH) throw BitesError(code);
        return code == BITES_MATCH;
    }

    // Makes the cache of a new regex. Throws if the regex or the cache was refused.
    void own(uint32_t code) {
        if (code == BITES_DONE) code = bites_cache_new(&regex, &cache);
        if (code == BITES_DONE) return;
        bites_free(&regex);
        throw BitesError(code);
    }

    bites_size replace_into(std::string_view haystack, std::string_view replacement, size_t limit, std::string &text) {
        return bites_replace(&regex, &cache, bytes(haystack), haystack.size(), limit, bytes(replacement), replacement.size(), reinterpret_cast<uint8_t *>(&text[0]), text.size());
    }

    mutable bites regex = {};
    bites_cache cache = {};
};

// The matches of a regex in a haystack, for one loop.
class BitesMatches {
public:
    // A match, or the end. The regex and the haystack must live as long.
    class iterator {
    public:
        using iterator_category = std::input_iterator_tag;
        using value_type = BitesMatch;
        using difference_type = std::ptrdiff_t;
        using pointer = const BitesMatch *;
        using reference = const BitesMatch &;

        // The end.
        iterator() = default;

        const BitesMatch &operator*() const { return *match; }
        const BitesMatch *operator->() const { return &*match; }
        iterator &operator++() {
            find_after(match->end);
            return *this;
        }
        iterator operator++(int) {
            iterator old(*this);
            ++*this;
            return old;
        }
        bool operator==(const iterator &other) const { return match.has_value() == other.match.has_value(); }
        bool operator!=(const iterator &other) const { return !(*this == other); }

    private:
        friend class BitesMatches;
        iterator(BitesRegex &own, std::string_view text) : regex(&own), haystack(text) { find_after(BITES_NONE); }

        void find_after(size_t last) {
            bites_span span = {0, 0};
            uint32_t code = bites_find_next(&regex->regex, &regex->cache, BitesRegex::bytes(haystack), haystack.size(), last, &span);
            match = BitesRegex::found(code) ? std::optional<BitesMatch>(BitesRegex::part(haystack, span)) : std::nullopt;
        }

        BitesRegex *regex = nullptr;
        std::string_view haystack;
        std::optional<BitesMatch> match;
    };

    iterator begin() const { return iterator(regex, haystack); }
    iterator end() const { return iterator(); }

private:
    friend class BitesRegex;
    BitesMatches(BitesRegex &own, std::string_view text) : regex(own), haystack(text) {}

    BitesRegex &regex;
    std::string_view haystack;
};

inline BitesMatches BitesRegex::matches(std::string_view haystack) & { return BitesMatches(*this, haystack); }

#endif
