// Lists the document of a file or of standard input, in C++17. What it reads, writes and ends with is as in list.c.
#include "sno_rewrite.hpp"

#include <cerrno>
#include <cstdio>
#include <iostream>
#include <memory>
#include <new>
#include <string>
#include <system_error>

namespace {

// Statuses that no call returned.
constexpr int wrong_use = 3;
constexpr int stream_failed = 4;

using File = std::unique_ptr<std::FILE, int (*)(std::FILE *)>;

std::system_error last_fault() {
    return std::system_error(errno, std::generic_category());
}

// Reads to the end, or one byte past the longest document, which is enough to see that it is too long.
std::string read_all(std::FILE *file) {
    std::string bytes;
    char piece[64 * 1024];
    while (bytes.size() <= SNO_LONGEST_DOCUMENT) {
        const auto count = std::fread(piece, 1, sizeof piece, file);
        if (std::ferror(file))
            throw last_fault();
        if (count == 0)
            break;
        bytes.append(piece, count);
    }
    return bytes;
}

std::string read_document(const std::string &path) {
    if (path == "-")
        return read_all(stdin);
    const File file(std::fopen(path.c_str(), "rb"), std::fclose);
    if (!file)
        throw last_fault();
    return read_all(file.get());
}

int report(const std::string &name, const std::string &fault, int status) {
    std::cerr << "list: " << name << ": " << fault << '\n';
    return status;
}

} // namespace

int main(int count, char **arguments) {
    if (count > 2) {
        std::cerr << "usage: list [FILE]\n";
        return wrong_use;
    }
    const std::string path = count == 2 ? arguments[1] : "-";
    const std::string name = path == "-" ? "standard input" : path;
    try {
        const auto result = sno::rewrite(read_document(path));
        const auto text = result.listing();
        if (std::fwrite(text.data(), 1, text.size(), stdout) != text.size() || std::fflush(stdout))
            return report("standard output", last_fault().code().message(), stream_failed);
        return result.status();
    } catch (const sno::Fault &fault) {
        return report(name, fault.what(), fault.status());
    } catch (const std::system_error &fault) {
        return report(name, fault.code().message(), stream_failed);
    } catch (const std::bad_alloc &) {
        return report(name, "out of memory", SNO_NO_MEMORY);
    }
}
