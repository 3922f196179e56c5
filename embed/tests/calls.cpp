// Tries sno_rewrite.hpp. The listings were worked out by hand from docs/FORMAT.md. Each failed case gets a line, and
// the last line is `N passed, M failed`.
#include "../sno_rewrite.hpp"

#include <cstdio>
#include <string>
#include <type_traits>
#include <utility>

namespace {

const std::string document =
    R"({"texts":[{"name":"T","text":"abc"}],"statements":[{"text":"T","pattern":"'b'","object":"'X'"}]})";
const std::string listing = "texts 1\nT 1 |aXc|\nentries 1\n0 statement 1 T 0 matched 1 2\n  -> |aXc|\nrefused 0\n";
const std::string refused = "texts 1\nT 0 |abc|\nentries 0\nrefused 1\nstatement 1 too many trials\n";
const std::string limit = "the limit of trials isn't from 1 to 1000000000";

int passed = 0, failed = 0;

void expect(const char *what, bool right) {
    (right ? passed : failed)++;
    if (!right)
        std::printf("FAILED %s\n", what);
}

void expect_listing(const char *what, const sno::Result &result, std::uint8_t status, const std::string &wanted) {
    expect(what, result && result.status() == status && result.listing() == wanted && result.fault().empty() &&
                     result.some_refused() == (status == SNO_SOME_REFUSED));
}

void expect_fault(const char *what, const sno::Result &result, std::uint8_t status, const std::string &wanted) {
    expect(what, !result && result.status() == status && result.fault() == wanted && result.listing().empty() &&
                     !result.some_refused());
}

sno::Options limited(std::uint32_t trials) {
    sno::Options options;
    options.trials = trials;
    return options;
}

void try_results() {
    expect_listing("a listing", sno::try_rewrite(document), SNO_ALL_ACCEPTED, listing);
    expect_listing("a refused statement", sno::try_rewrite(document, limited(1)), SNO_SOME_REFUSED, refused);
    sno::Options anchored;
    anchored.anchor = true;
    expect_listing("anchored", sno::try_rewrite(document, anchored), SNO_ALL_ACCEPTED,
                   "texts 1\nT 0 |abc|\nentries 1\n0 statement 1 T 0 failed\nrefused 0\n");
    sno::Options json;
    json.json = true;
    const auto members = sno::try_rewrite(document, json);
    expect("JSON", members && members.listing().substr(0, 12) == R"({"entries":[)");
    for (std::size_t room = 0; room <= listing.size() + 1; room++)
        expect_listing("a short buffer", sno::try_rewrite(document, {}, room), SNO_ALL_ACCEPTED, listing);
    expect_fault("a fault", sno::try_rewrite("["), SNO_NO_DOCUMENT, "input: not JSON");
    expect_fault("nothing", sno::try_rewrite(std::string_view()), SNO_NO_DOCUMENT, "input: not JSON");
    expect_fault("a fault with no room", sno::try_rewrite("[", {}, 0), SNO_NO_DOCUMENT, "not a document");
    for (std::uint32_t trials : {0u, 1000000001u, 4294967295u})
        expect_fault("a bad limit", sno::try_rewrite(document, limited(trials)), SNO_BAD_LIMIT, limit);
    expect_fault("no memory", sno::try_rewrite(document, {}, SIZE_MAX / 4), SNO_NO_MEMORY, "out of memory");
}

void try_moves() {
    static_assert(!std::is_copy_constructible_v<sno::Result> && std::is_nothrow_move_constructible_v<sno::Result>);
    auto first = sno::try_rewrite(document);
    auto second = std::move(first);
    expect_listing("a moved result", second, SNO_ALL_ACCEPTED, listing);
    expect("what is left of it", first.listing().empty());
    second = sno::try_rewrite("[");
    expect_fault("an assigned result", second, SNO_NO_DOCUMENT, "input: not JSON");
}

#if defined(__cpp_exceptions)

void expect_thrown(const char *what, const std::string &given, const sno::Options &options, int status,
                   const std::string &wanted) {
    try {
        sno::rewrite(given, options);
        expect(what, false);
    } catch (const sno::Fault &fault) {
        expect(what, fault.status() == status && fault.what() == wanted);
    }
}

void try_exceptions() {
    expect_listing("a listing, or an exception", sno::rewrite(document), SNO_ALL_ACCEPTED, listing);
    expect_listing("a refused statement is not thrown", sno::rewrite(document, limited(1)), SNO_SOME_REFUSED, refused);
    expect_thrown("a thrown fault", "[", {}, SNO_NO_DOCUMENT, "input: not JSON");
    expect_thrown("a thrown bad limit", document, limited(0), SNO_BAD_LIMIT, limit);
    try {
        sno::rewrite(document, {}, SIZE_MAX / 4);
        expect("no memory is thrown", false);
    } catch (const std::bad_alloc &) {
        expect("no memory is thrown", true);
    }
}

#else

void try_exceptions() {}

#endif

} // namespace

int main() {
    try_results();
    try_moves();
    try_exceptions();
    std::printf("%d passed, %d failed\n", passed, failed);
    return failed != 0;
}
