// first FILE [explicit] [portable] [floats]: prints the text of a module, by these flags, from C++.
#include <fstream>
#include <iostream>
#include <iterator>
#include <stdexcept>
#include <string>
#include "yorwethul.h"

static std::string write_wgsl(const std::string &json, uint32_t flags = 0) {
    auto bytes = reinterpret_cast<const uint8_t *>(json.data());
    std::string text(json.size() + 256, '\0');
    for (;;) {
        size_t needed = 0;
        auto status = yorwethul_write(bytes, json.size(), flags,
                                      reinterpret_cast<uint8_t *>(&text[0]), text.size(), &needed);
        bool is_whole = needed <= text.size();
        text.resize(needed);
        if (!is_whole) continue;
        if (status != YORWETHUL_DONE)
            throw std::runtime_error(text + " (status " + std::to_string(status) + ")");
        return text;
    }
}

static uint32_t flag_of(const std::string &word) {
    if (word == "explicit") return YORWETHUL_EXPLICIT_TYPES;
    if (word == "portable") return YORWETHUL_PORTABLE;
    if (word == "floats") return YORWETHUL_DECIMAL_FLOATS;
    throw std::invalid_argument("unknown word " + word);
}

static std::string read_file(const std::string &path) {
    std::ifstream file(path, std::ios::binary);
    file.peek(); // a folder can be opened, and not read
    if (file.fail()) throw std::invalid_argument("can't read " + path);
    return std::string(std::istreambuf_iterator<char>(file), {});
}

int main(int count, char **words) try {
    uint32_t flags = 0;
    for (int at = 2; at < count; at++) flags |= flag_of(words[at]);
    std::cout << write_wgsl(read_file(count > 1 ? words[1] : "/dev/stdin"), flags) << std::flush;
    if (std::cout) return 0;
    std::cerr << "the text could not be written\n";
    return 2;
} catch (const std::runtime_error &error) {
    std::cerr << error.what() << '\n';
    return 1;
} catch (const std::exception &error) { // the words are wrong, or memory is refused
    std::cerr << error.what() << '\n';
    return 2;
}
