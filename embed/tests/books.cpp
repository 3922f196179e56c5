// Tries the books of sno_rewrite.hpp. What is wanted was worked out by hand from docs/SERVE.md. Each failed case gets a
// line, and the last line is `N passed, M failed`.
#include "../sno_rewrite.hpp"

#include <cstdio>
#include <string>
#include <type_traits>
#include <utility>

namespace {

const std::string document =
    R"({"texts":[{"name":"T","text":"abc"}],"statements":[{"text":"T","pattern":"'b'","object":"'X'"}]})";
const std::string entry =
    R"({"after":"aY","bindings":[],"end":3,"entry":1,"matched":true,"start":1,"statement":2,"text":"T","version":1})"
    "\n";

int passed = 0, failed = 0;

void expect(const char *what, bool right) {
    (right ? passed : failed)++;
    if (!right)
        std::printf("FAILED %s\n", what);
}

sno::Book opened() {
    sno::Book book;
    expect("a book is opened", book.open(document) == SNO_DONE && book.fault().empty() && book);
    return book;
}

void try_lines() {
    sno::Book book = opened();
    std::string reply = "none";
    expect("no reply yet", book.reply(reply) == SNO_NOTHING && reply == "none");
    expect("a statement", book.line(R"({"text":"T","pattern":"'Xc'","object":"'Y'"})", reply) == SNO_DONE && reply == entry);
    reply.clear();
    expect("its reply once more", book.reply(reply) == SNO_DONE && reply == entry);
    expect("a read", book.line(R"({"read":"T"})", reply) == SNO_DONE && reply == "{\"name\":\"T\",\"text\":\"aY\",\"version\":2}\n");
    expect("an empty line", book.line("", reply) == SNO_DONE && reply == "{\"error\":\"not JSON\"}\n");
    std::string listing;
    expect("the listing", book.listing(listing) == SNO_DONE && listing.find(R"("refused":[],"texts":[{"name":"T","text":"aY","version":2}]})") != std::string::npos);
}

// Longer than what takes one call; the line is done once.
void try_long_replies() {
    sno::Book book = opened();
    const std::string many(60000, 'z');
    const std::string line = R"({"text":"T","pattern":"'X'","object":"Z","bind":{"Z":")" + many + R"("}})";
    std::string reply, listing;
    expect("a long reply", book.line(line, reply) == SNO_DONE && reply.size() > 60000 && reply.find(R"("entry":1,)") != std::string::npos);
    expect("a long listing", book.listing(listing) == SNO_DONE && listing.size() > 120000 && listing.back() == '\n');
    expect("it was done once", book.line(R"({"since":1})", reply) == SNO_DONE && reply.find(R"("entry":2,)") == std::string::npos);
}

void try_handles() {
    sno::Book book = opened(), other = std::move(book);
    std::string reply = "none";
    expect("a book that was moved away", !book && book.line("{}", reply) == SNO_CLOSED && book.reply(reply) == SNO_CLOSED &&
                                             book.listing(reply) == SNO_CLOSED && reply == "none");
    expect("a book that was moved", other && other.line(R"({"texts":true})", reply) == SNO_DONE);
    book = std::move(other);
    expect("and back", book && !other);
    sno::Options options;
    options.trials = 0;
    expect("a bad limit", book.open(document, options) == SNO_BAD_LIMIT && !book && book.fault().empty());
    expect("a fault", book.open("[") == SNO_FAULT && !book && book.fault() == "input: not JSON");
    expect("nothing", book.open({}) == SNO_FAULT && book.fault() == "input: not JSON");
    options.trials = 3;
    expect("a limit", book.open(R"({"texts":[{"name":"T","text":"aaab"}]})", options) == SNO_DONE &&
                          book.line(R"({"text":"T","pattern":"'b'"})", reply) == SNO_DONE &&
                          reply == "{\"reason\":\"too many trials\"}\n");
    static_assert(!std::is_copy_constructible<sno::Book>::value, "a book isn't copied");
}

} // namespace

int main() {
    try_lines();
    try_long_replies();
    try_handles();
    std::printf("%d passed, %d failed\n", passed, failed);
    return failed != 0;
}
