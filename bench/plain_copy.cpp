// A plain copy of a document: takes standard input, keeps the words and the numbers of each line, and
// writes them again with single spaces. With an argument it only reads.
#include <charconv>
#include <cstdint>
#include <cstdio>
#include <string>
#include <vector>

struct Line {
    std::string words;
    std::vector<int64_t> numbers;
};

static std::vector<char> all_of(FILE *in) {
    std::vector<char> bytes;
    static char piece[65536];
    size_t count;
    while ((count = fread(piece, 1, sizeof piece, in)) > 0) bytes.insert(bytes.end(), piece, piece + count);
    return bytes;
}

static std::vector<Line> lines_of(const std::vector<char> &bytes) {
    std::vector<Line> lines;
    const char *at = bytes.data(), *end = at + bytes.size();
    while (at < end) {
        Line line;
        while (at < end && *at != '\n') {
            if (*at == ' ') {
                at++;
            } else if (*at == '-' || (*at >= '0' && *at <= '9')) {
                bool negative = *at == '-';
                if (negative) at++;
                int64_t value = 0;
                while (at < end && *at >= '0' && *at <= '9') value = 10 * value + (*at++ - '0');
                line.numbers.push_back(negative ? -value : value);
            } else {
                while (at < end && *at != ' ' && *at != '\n') line.words.push_back(*at++);
                line.words.push_back(' ');
            }
        }
        at++;
        lines.push_back(line);
    }
    return lines;
}

int main(int count, char **) {
    std::vector<Line> lines = lines_of(all_of(stdin));
    if (count > 1) return lines.empty();
    std::string text;
    char digits[24];
    for (const Line &line : lines) {
        text += line.words;
        for (size_t k = 0; k < line.numbers.size(); k++) {
            if (k > 0) text.push_back(' ');
            text.append(digits, std::to_chars(digits, digits + sizeof digits, line.numbers[k]).ptr);
        }
        text.push_back('\n');
    }
    return fwrite(text.data(), 1, text.size(), stdout) != text.size();
}
