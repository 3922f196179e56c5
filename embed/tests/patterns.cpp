// Tries the patterns and texts of sno_rewrite.hpp. What is wanted was worked out by hand from docs/LANGUAGE.md. Each
// failed case gets a line, and the last line is `N passed, M failed`.
#include "../sno_rewrite.hpp"

#include <cstdio>
#include <string>
#include <type_traits>
#include <utility>
#include <vector>

namespace {

const std::string brackets = "SPAN('0123456789') . N = '<' N '>'";

int passed = 0, failed = 0;

void expect(const char *what, bool right) {
    (right ? passed : failed)++;
    if (!right)
        std::printf("FAILED %s\n", what);
}

sno::Pattern opened(const std::string &rule, const std::string &definitions = "") {
    sno::Pattern pattern;
    expect(rule.c_str(), pattern.open(rule, definitions) == SNO_DONE && pattern.fault().empty() && pattern);
    return pattern;
}

sno::Text text_of(const std::string &bytes) {
    sno::Text text;
    expect(bytes.c_str(), text.open(bytes) == SNO_DONE && text);
    return text;
}

std::vector<std::string> all_of(sno::Pattern &pattern, const std::string &bytes) {
    std::vector<std::string> all;
    sno::Text text = text_of(bytes);
    sno::Matches matches = pattern.matches(text);
    for (const sno::Match &match : matches)
        all.emplace_back(match.of(bytes));
    expect("the matches come to their end", matches.status() == SNO_NOTHING);
    return all;
}

void try_matches() {
    using Strings = std::vector<std::string>;
    sno::Pattern pattern = opened(brackets);
    expect("two matches", all_of(pattern, "a12b345") == Strings{"12", "345"});
    expect("no match", all_of(pattern, "abc").empty());
    expect("an empty text", all_of(pattern, "").empty());
    sno::Pattern runs = opened("SPAN('a') | ''");
    expect("null strings", all_of(runs, "aabab") == Strings{"aa", "a", ""});
    sno::Pattern words = opened("*PAIR", "WORD = SPAN(LETTER)\nPAIR = *WORD '=' *WORD\n");
    expect("definitions", all_of(words, "a=b 1=2 cc=d") == Strings{"a=b", "cc=d"});

    sno::Text text = text_of("a12b345");
    sno::Match match;
    expect("a search from a cursor", pattern.next(text, 3, match) == SNO_DONE && match.start == 4 && match.end == 7 &&
                                         match.next == 7 && match.assignments == 1);
    const auto assignments = pattern.assignments();
    expect("its assignment", assignments.size() == 1 && assignments[0].name == "N" && assignments[0].start == 4 &&
                                 assignments[0].end == 7 && !assignments[0].is_cursor &&
                                 assignments[0].of("a12b345") == "345");
    expect("past the end", pattern.next(text, 8, match) == SNO_PAST_END && match.next == 0);
    sno::Matches few = pattern.matches(text, 1);
    expect("too many trials", few.begin() == few.end() && few.status() == SNO_TOO_MANY_TRIALS);
}

void try_gathered() {
    sno::Pattern pattern = opened(brackets);
    sno::Text text = text_of("a12b345");
    sno::Match match;
    expect("nothing is gathered", pattern.take(match) == SNO_NOTHING_GATHERED && match.next == 0);
    expect("too few trials to gather", pattern.gather(text, 0, 5, 1) == SNO_TOO_MANY_TRIALS);
    expect("then nothing is gathered", pattern.take(match) == SNO_NOTHING_GATHERED);
    expect("searches are gathered", pattern.gather(text, 0, 5) == SNO_DONE);
    expect("the first of them", pattern.take(match) == SNO_DONE && match.start == 1 && match.end == 3 &&
                                    match.next == 3 && match.assignments == 1);
    const auto assignments = pattern.assignments();
    expect("its assignment", assignments.size() == 1 && assignments[0].of("a12b345") == "12");
    expect("the second of them", pattern.take(match) == SNO_DONE && match.start == 4 && match.end == 7 &&
                                     match.next == 7);
    expect("no further match", pattern.take(match) == SNO_NOTHING && match.next == 8 && pattern.assignments().empty());
    expect("nothing is left", pattern.take(match) == SNO_NOTHING_GATHERED);
    expect("one search", pattern.gather(text, 2, 1) == SNO_DONE && pattern.take(match) == SNO_DONE &&
                             match.start == 2 && pattern.take(match) == SNO_NOTHING_GATHERED);
    expect("a gathering past the end", pattern.gather(text, 8, 5) == SNO_PAST_END);
    sno::Pattern closed;
    expect("a closed pattern to gather", closed.gather(text, 0, 5) == SNO_CLOSED && closed.take(match) == SNO_CLOSED);
}

void try_replacements() {
    sno::Pattern pattern = opened(brackets);
    sno::Text text = text_of("a12b345");
    std::string changed = "unchanged";
    std::uint64_t matches = 12345;
    expect("a new text", pattern.replace(text, changed, &matches) == SNO_DONE && changed == "a<12>b<345>" &&
                             matches == 2);
    sno::Text other = text_of("abc");
    expect("no match to replace", pattern.replace(other, changed, &matches) == SNO_NOTHING &&
                                      changed == "a<12>b<345>" && matches == 0);
    expect("a bad limit", pattern.replace(text, changed, &matches, 0) == SNO_BAD_LIMIT && matches == 0);
    const std::string many(100000, '7');
    sno::Text large = text_of(many);
    expect("a long new text", pattern.replace(large, changed) == SNO_DONE && changed == "<" + many + ">");
}

void try_faults() {
    sno::Pattern pattern;
    sno::Text text = text_of("a");
    sno::Match match;
    expect("a closed pattern", !pattern && pattern.next(text, 0, match) == SNO_CLOSED);
    expect("a fault", pattern.open("LEN(x)") == SNO_FAULT && !pattern &&
                          pattern.fault().rfind("statement 1: pattern: bad number at 4\n", 0) == 0);
    expect("then a rule", pattern.open("'a'") == SNO_DONE && pattern.fault().empty());
    expect("no rule", pattern.open(std::string_view()) == SNO_FAULT);
    expect("a text that is too long", text.open(std::string(SNO_LONGEST_TEXT + 1, 'a')) == SNO_TOO_LONG && !text);
}

void try_moves() {
    static_assert(!std::is_copy_constructible<sno::Pattern>::value, "a pattern is not copied");
    static_assert(!std::is_copy_constructible<sno::Text>::value, "a text is not copied");
    static_assert(std::is_nothrow_move_constructible<sno::Pattern>::value, "a pattern is moved");
    sno::Pattern first = opened("'a'"), second = opened("'b'");
    sno::Text text = text_of("ab"), other = text_of("b");
    sno::Match match;
    second = std::move(first);
    expect("a moved pattern", second.next(text, 0, match) == SNO_DONE && match.start == 0);
    expect("what it was moved from", !first && first.next(text, 0, match) == SNO_CLOSED);
    text = std::move(other);
    expect("a moved text", second.next(text, 0, match) == SNO_NOTHING && !other);
    sno::Pattern third(std::move(second));
    expect("a pattern made of another", third && !second);
}

} // namespace

int main() {
    try_matches();
    try_gathered();
    try_replacements();
    try_faults();
    try_moves();
    std::printf("%d passed, %d failed\n", passed, failed);
    return failed ? 1 : 0;
}
