// Nomyake for C++17: performs the statements of a document in order and lists what they did.
//
//     const auto result = sno::rewrite(document);             // throws sno::Fault or std::bad_alloc
//     std::cout << result.listing();
//
//     const auto result = sno::try_rewrite(document);         // never throws
//     std::cout << (result ? result.listing() : result.fault());
//
//     sno::Pattern pattern;                                   // reads a rule once, and seeks it in any number of texts
//     sno::Text text;
//     if (pattern.open("SPAN('0123456789') . N = '<' N '>'") || text.open(bytes))
//         std::cerr << pattern.fault();
//     for (const sno::Match &match : pattern.matches(text))
//         std::cout << match.of(bytes) << '\n';
//     std::string changed;
//     pattern.replace(text, changed);
//
//     sno::Book book;                                         // keeps texts and a journal, and takes lines as `sno serve` does
//     std::string reply;
//     if (book.open(document) == SNO_DONE && book.line(R"({"read":"T"})", reply) == SNO_DONE)
//         std::cout << reply;
//
// A result, a pattern, a text and a book own their bytes and can be moved. Several threads may call at once, each with a
// stack of 2 MiB or more. If the compiler has no exceptions, as by -fno-exceptions, there is try_rewrite alone.
#ifndef SNO_REWRITE_HPP
#define SNO_REWRITE_HPP

#include "sno_rewrite.h"

#include <cstddef>
#include <cstdint>
#include <cstring>
#include <iterator>
#include <memory>
#include <new>
#include <stdexcept>
#include <string>
#include <string_view>
#include <utility>
#include <vector>

namespace sno {

struct Options {
    // Whether a statement without the member `anchored` is anchored.
    bool anchor = false;
    // Whether the listing is JSON.
    bool json = false;
    // How many trials the match of a statement may take, from 1 to 1,000,000,000.
    std::uint32_t trials = SNO_USUAL_TRIALS;
};

// A listing, or why there is none.
class Result {
public:
    Result(Result &&other) noexcept
        : status_(other.status_), bytes_(std::move(other.bytes_)), length_(std::exchange(other.length_, 0)) {}

    Result &operator=(Result &&other) noexcept {
        status_ = other.status_;
        bytes_ = std::move(other.bytes_);
        length_ = std::exchange(other.length_, 0);
        return *this;
    }

    // Whether there is a listing.
    explicit operator bool() const noexcept { return status_ <= SNO_SOME_REFUSED; }

    // What the call returned: one of sno_status.
    std::uint8_t status() const noexcept { return status_; }

    // Whether there is a listing, and it names statements that were refused.
    bool some_refused() const noexcept { return status_ == SNO_SOME_REFUSED; }

    // The listing; empty if there is none. It is valid as long as this result is.
    std::string_view listing() const &noexcept { return *this ? bytes() : std::string_view(); }
    std::string_view listing() const && = delete;

    // The line of the fault; empty if there is a listing.
    std::string_view fault() const &noexcept {
        if (*this)
            return {};
        if (length_ > 0 && status_ != SNO_TOO_SHORT)
            return bytes();
        switch (status_) {
        case SNO_NO_DOCUMENT:
            return "not a document";
        case SNO_BAD_LIMIT:
            return "the limit of trials isn't from 1 to 1000000000";
        case SNO_NO_MEMORY:
            return "out of memory";
        default:
            return "unexpected status";
        }
    }
    std::string_view fault() const && = delete;

private:
    friend Result try_rewrite(std::string_view document, const Options &options, std::size_t room) noexcept;

    Result() = default;

    std::string_view bytes() const noexcept { return {bytes_.get(), length_}; }

    // Keeps a copy in memory of the right length; if there is none, the longer memory stays.
    void shrink() noexcept {
        std::unique_ptr<char[]> exact(new (std::nothrow) char[length_ + 1]);
        if (!exact)
            return;
        std::memcpy(exact.get(), bytes_.get(), length_);
        bytes_ = std::move(exact);
    }

    // Makes one call with a new buffer.
    void call(std::string_view document, const Options &options, std::size_t room) noexcept {
        length_ = 0;
        status_ = SNO_NO_MEMORY;
        bytes_.reset(new (std::nothrow) char[room + 1]);
        if (!bytes_)
            return;
        // The view of nothing may be null, which the library doesn't take.
        const char *first = document.empty() ? "" : document.data();
        status_ = sno_rewrite(reinterpret_cast<const std::uint8_t *>(first), document.size(), options.anchor,
                              options.json, options.trials, reinterpret_cast<std::uint8_t *>(bytes_.get()), room,
                              &length_);
    }

    std::uint8_t status_ = SNO_NO_MEMORY;
    std::unique_ptr<char[]> bytes_;
    std::size_t length_ = 0;
};

// Performs the statements in order. The result has the listing, or the fault; nothing is thrown. A listing of more than
// `room` bytes takes a second run, since only the first one shows how long it is.
inline Result try_rewrite(std::string_view document, const Options &options = {}, std::size_t room = 65536) noexcept {
    Result result;
    result.call(document, options, room);
    if (result.status_ == SNO_TOO_SHORT)
        result.call(document, options, result.length_);
    else if (result.bytes_)
        result.shrink();
    return result;
}

// A text that is kept for searches: a copy of bytes.
class Text {
public:
    Text() noexcept = default;
    Text(Text &&other) noexcept : text_(std::exchange(other.text_, sno_text())) {}
    Text &operator=(Text &&other) noexcept {
        if (this != &other) {
            sno_text_close(&text_);
            text_ = std::exchange(other.text_, sno_text());
        }
        return *this;
    }
    ~Text() { sno_text_close(&text_); }

    // Copies bytes: SNO_DONE, SNO_NO_MEMORY or SNO_TOO_LONG. Except for SNO_DONE the text is then closed.
    std::uint8_t open(std::string_view bytes) noexcept {
        const char *first = bytes.empty() ? "" : bytes.data();
        return sno_text_open(reinterpret_cast<const std::uint8_t *>(first), bytes.size(), &text_);
    }

    explicit operator bool() const noexcept { return text_.handle.is_open; }

private:
    friend class Pattern;

    sno_text text_ = sno_text();
};

// Where a match is.
struct Match {
    std::size_t start = 0;
    std::size_t end = 0;
    // Where to go on for the next match; one past the end of the text if there can be none.
    std::size_t next = 0;
    // How many assignments the search did, also without a match.
    std::size_t assignments = 0;

    // What was matched, if these are the bytes of the text.
    std::string_view of(std::string_view bytes) const noexcept {
        return start <= bytes.size() ? bytes.substr(start, end - start) : std::string_view();
    }
};

// An assignment of a variable: its value is the text between the two cursors or, if `is_cursor`, the number `start`.
struct Assignment {
    std::string name;
    std::size_t start = 0;
    std::size_t end = 0;
    bool is_cursor = false;

    std::string_view of(std::string_view bytes) const noexcept {
        return start <= bytes.size() ? bytes.substr(start, end - start) : std::string_view();
    }
};

class Matches;

// A pattern that was read from a rule. It may be used by one thread at a time.
class Pattern {
public:
    Pattern() noexcept = default;
    Pattern(Pattern &&other) noexcept
        : pattern_(std::exchange(other.pattern_, sno_pattern())), fault_(std::move(other.fault_)) {}
    Pattern &operator=(Pattern &&other) noexcept {
        if (this != &other) {
            sno_pattern_close(&pattern_);
            pattern_ = std::exchange(other.pattern_, sno_pattern());
            fault_ = std::move(other.fault_);
        }
        return *this;
    }
    ~Pattern() { sno_pattern_close(&pattern_); }

    // Reads a rule and the definitions that it may refer to: SNO_DONE, SNO_FAULT or SNO_NO_MEMORY, as sno_pattern_open.
    std::uint8_t open(std::string_view rule, std::string_view definitions = {}) {
        std::uint8_t line[1024];
        std::size_t length = 0;
        fault_.clear();
        const std::uint8_t status = sno_pattern_open(first(definitions), definitions.size(), first(rule), rule.size(),
                                                     line, sizeof line, &length, &pattern_);
        fault_.assign(reinterpret_cast<const char *>(line), length);
        return status;
    }

    // What is wrong with the rule that was opened last, in lines; empty if nothing is.
    const std::string &fault() const noexcept { return fault_; }

    explicit operator bool() const noexcept { return pattern_.handle.is_open; }

    // Seeks a match from a cursor on, as sno_pattern_next.
    std::uint8_t next(Text &text, std::size_t from, Match &match, std::uint32_t trials = SNO_USUAL_TRIALS) noexcept {
        sno_match found = sno_match();
        const std::uint8_t status = sno_pattern_next(&pattern_, &text.text_, from, trials, &found);
        match = {found.start, found.end, found.next, found.assignments};
        return status;
    }

    // Does up to `most` searches at once that follow one another, as sno_pattern_gather. What was gathered before is
    // dropped.
    std::uint8_t gather(Text &text, std::size_t from, std::size_t most,
                        std::uint32_t trials = SNO_USUAL_TRIALS) noexcept {
        return sno_pattern_gather(&pattern_, &text.text_, from, trials, most);
    }

    // Takes the first of the searches that were gathered, as sno_pattern_take. It is the last search then.
    std::uint8_t take(Match &match) noexcept {
        sno_match found = sno_match();
        const std::uint8_t status = sno_pattern_take(&pattern_, &found);
        match = {found.start, found.end, found.next, found.assignments};
        return status;
    }

    // All matches of one pass, one after the other. Each search may take `trials` trials.
    Matches matches(Text &text, std::uint32_t trials = SNO_USUAL_TRIALS) noexcept;

    // The assignments of the last search, in their order.
    std::vector<Assignment> assignments() {
        std::vector<Assignment> all;
        std::uint8_t name[SNO_LONGEST_NAME];
        sno_assignment one;
        while (sno_pattern_assignment(&pattern_, all.size(), name, sizeof name, &one) == SNO_DONE)
            all.push_back({std::string(reinterpret_cast<const char *>(name), one.name_length), one.start, one.end,
                           one.is_cursor});
        return all;
    }

    // Puts what the rule makes of the text in `changed`, as sno_pattern_replace does, and the number of matches in
    // `matches`. Except for SNO_DONE, `changed` is unchanged.
    std::uint8_t replace(Text &text, std::string &changed, std::uint64_t *matches = nullptr,
                         std::uint32_t trials = SNO_USUAL_TRIALS) {
        std::string output(first_room, '\0');
        sno_replaced replaced = sno_replaced();
        std::uint8_t status = replace_into(text, output, trials, replaced);
        if (status == SNO_TOO_SHORT) {
            output.resize(replaced.length);
            status = replace_into(text, output, trials, replaced);
        }
        if (matches)
            *matches = replaced.matches;
        if (status == SNO_DONE) {
            output.resize(replaced.length);
            changed = std::move(output);
        }
        return status;
    }

private:
    // A new text of up to this length takes one call.
    static constexpr std::size_t first_room = 4096;

    static const std::uint8_t *first(std::string_view bytes) noexcept {
        return reinterpret_cast<const std::uint8_t *>(bytes.empty() ? "" : bytes.data());
    }

    std::uint8_t replace_into(Text &text, std::string &output, std::uint32_t trials, sno_replaced &replaced) noexcept {
        return sno_pattern_replace(&pattern_, &text.text_, trials, reinterpret_cast<std::uint8_t *>(&output[0]),
                                   output.size(), &replaced);
    }

    sno_pattern pattern_ = sno_pattern();
    std::string fault_;
};

// The matches of a pass over a text, for a loop. A null string at the end of the match before is no match of a pass. The
// pattern and the text have to stay, and no other search may be done for the pattern while its assignments are wanted.
class Matches {
public:
    class iterator {
    public:
        using iterator_category = std::input_iterator_tag;
        using value_type = Match;
        using difference_type = std::ptrdiff_t;
        using pointer = const Match *;
        using reference = const Match &;

        reference operator*() const noexcept { return matches_->match_; }
        pointer operator->() const noexcept { return &matches_->match_; }
        iterator &operator++() noexcept {
            if (!matches_->go_on())
                matches_ = nullptr;
            return *this;
        }
        void operator++(int) noexcept { ++*this; }
        bool operator==(const iterator &other) const noexcept { return matches_ == other.matches_; }
        bool operator!=(const iterator &other) const noexcept { return matches_ != other.matches_; }

    private:
        friend class Matches;

        explicit iterator(Matches *matches) noexcept : matches_(matches) {}

        Matches *matches_;
    };

    // Goes to the first match that is left; an input range, so there is one pass.
    iterator begin() noexcept { return iterator(go_on() ? this : nullptr); }
    iterator end() noexcept { return iterator(nullptr); }

    // What the last search returned. After the loop it is SNO_NOTHING, or else why there are no further matches.
    std::uint8_t status() const noexcept { return status_ == SNO_PAST_END ? std::uint8_t(SNO_NOTHING) : status_; }

private:
    friend class Pattern;

    Matches(Pattern &pattern, Text &text, std::uint32_t trials) noexcept
        : pattern_(&pattern), text_(&text), trials_(trials) {}

    bool go_on() noexcept {
        for (;;) {
            const bool is_first = status_ != SNO_DONE;
            const Match before = match_;
            status_ = pattern_->next(*text_, before.next, match_, trials_);
            if (status_ != SNO_DONE)
                return false;
            if (is_first || match_.start != before.end || match_.end != before.end)
                return true;
        }
    }

    Pattern *pattern_;
    Text *text_;
    std::uint32_t trials_;
    std::uint8_t status_ = SNO_NOTHING;
    Match match_;
};

inline Matches Pattern::matches(Text &text, std::uint32_t trials) noexcept { return Matches(*this, text, trials); }

// A book: texts with a journal, which takes lines of JSON as `sno serve` does. It may be used by one thread at a time.
class Book {
public:
    Book() noexcept = default;
    Book(Book &&other) noexcept
        : book_(std::exchange(other.book_, sno_book())), fault_(std::move(other.fault_)) {}
    Book &operator=(Book &&other) noexcept {
        if (this != &other) {
            sno_book_close(&book_);
            book_ = std::exchange(other.book_, sno_book());
            fault_ = std::move(other.fault_);
        }
        return *this;
    }
    ~Book() { sno_book_close(&book_); }

    // Reads a document and performs its statements: SNO_DONE, SNO_FAULT, SNO_BAD_LIMIT or SNO_NO_MEMORY, as
    // sno_book_open. `options.json` means nothing here.
    std::uint8_t open(std::string_view document, const Options &options = {}) {
        std::uint8_t line[128];
        std::size_t length = 0;
        fault_.clear();
        const std::uint8_t status = sno_book_open(first(document), document.size(), options.anchor, options.trials,
                                                  line, sizeof line, &length, &book_);
        fault_.assign(reinterpret_cast<const char *>(line), length);
        return status;
    }

    // The line of the fault of the document that was opened last; empty if it has none.
    const std::string &fault() const noexcept { return fault_; }

    explicit operator bool() const noexcept { return book_.handle.is_open; }

    // Does what a line asks for, once, and puts the reply, which ends in a line feed, in `given`: SNO_DONE,
    // SNO_NO_MEMORY or SNO_CLOSED, as sno_book_line. Except for SNO_DONE, `given` is unchanged. If a std::bad_alloc is
    // thrown, the line may be done, and reply() has its reply.
    std::uint8_t line(std::string_view line, std::string &given) {
        std::string output(first_room, '\0');
        std::size_t length = 0;
        const std::uint8_t status = sno_book_line(&book_, first(line), line.size(), bytes(output), output.size(), &length);
        return status == SNO_TOO_SHORT ? fill(sno_book_reply, output, length, given) : take(status, output, length, given);
    }

    // Puts the reply to the last line in `given`: SNO_DONE, SNO_NOTHING or SNO_CLOSED, as sno_book_reply.
    std::uint8_t reply(std::string &given) {
        std::string output;
        return fill(sno_book_reply, output, first_room, given);
    }

    // Puts the listing as JSON in `given`: SNO_DONE, SNO_NO_MEMORY or SNO_CLOSED, as sno_book_listing.
    std::uint8_t listing(std::string &given) {
        std::string output;
        return fill(sno_book_listing, output, first_room, given);
    }

private:
    using Call = std::uint8_t (*)(sno_book *, std::uint8_t *, std::size_t, std::size_t *);

    // A reply and a listing of up to this length take one call.
    static constexpr std::size_t first_room = 4096;

    static const std::uint8_t *first(std::string_view bytes) noexcept {
        return reinterpret_cast<const std::uint8_t *>(bytes.empty() ? "" : bytes.data());
    }

    static std::uint8_t *bytes(std::string &output) noexcept { return reinterpret_cast<std::uint8_t *>(&output[0]); }

    static std::uint8_t take(std::uint8_t status, std::string &output, std::size_t length, std::string &given) {
        if (status == SNO_DONE) {
            output.resize(length);
            given = std::move(output);
        }
        return status;
    }

    // Calls with room for `length` bytes, and once more if there are more.
    std::uint8_t fill(Call call, std::string &output, std::size_t length, std::string &given) {
        std::uint8_t status = SNO_TOO_SHORT;
        while (status == SNO_TOO_SHORT) {
            output.resize(length);
            status = call(&book_, bytes(output), output.size(), &length);
        }
        return take(status, output, length, given);
    }

    sno_book book_ = sno_book();
    std::string fault_;
};

#if defined(__cpp_exceptions)

// Why there is no listing. Its what() is the line of the fault.
class Fault : public std::runtime_error {
public:
    explicit Fault(const Result &result)
        : std::runtime_error(std::string(result.fault())), status_(result.status()) {}

    std::uint8_t status() const noexcept { return status_; }

private:
    std::uint8_t status_;
};

// The same, but throws a Fault if there is no listing, and std::bad_alloc if memory ran out.
inline Result rewrite(std::string_view document, const Options &options = {}, std::size_t room = 65536) {
    Result result = try_rewrite(document, options, room);
    if (result.status() == SNO_NO_MEMORY)
        throw std::bad_alloc();
    if (!result)
        throw Fault(result);
    return result;
}

#endif

} // namespace sno

#endif
