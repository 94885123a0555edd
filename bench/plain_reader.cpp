// A plain reader: takes all of standard input, splits it into lines and fields, and adds up the
// numbers. The benches take it as the measure of what reading costs at least.
#include <cstdint>
#include <cstdio>
#include <vector>

static std::vector<char> all_of(FILE *in) {
    std::vector<char> bytes;
    static char piece[65536];
    size_t count;
    while ((count = fread(piece, 1, sizeof piece, in)) > 0) bytes.insert(bytes.end(), piece, piece + count);
    return bytes;
}

int main() {
    std::vector<char> bytes = all_of(stdin);
    std::vector<int64_t> numbers;
    uint64_t lines = 0;
    const char *at = bytes.data(), *end = at + bytes.size();
    while (at < end) {
        while (at < end && (*at == ' ' || *at == '\t' || *at == '\r')) at++;
        if (at == end) break;
        if (*at == '\n') {
            lines++;
            at++;
        } else if (*at == '-' || (*at >= '0' && *at <= '9')) {
            bool negative = *at == '-';
            if (negative) at++;
            int64_t value = 0;
            while (at < end && *at >= '0' && *at <= '9') value = 10 * value + (*at++ - '0');
            numbers.push_back(negative ? -value : value);
        } else if (*at == 'c') {
            while (at < end && *at != '\n') at++;
        } else {
            while (at < end && *at != ' ' && *at != '\t' && *at != '\n') at++;
        }
    }
    uint64_t sum = 0;
    for (int64_t number : numbers) sum += static_cast<uint64_t>(number);
    printf("%zu numbers on %llu lines, sum %llu\n", numbers.size(), (unsigned long long)lines, (unsigned long long)sum);
}
