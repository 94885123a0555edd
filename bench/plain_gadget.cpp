// Builds the graph that the certificates of a kind speak of in plain loops, as often as asked:
// plain_gadget KIND TIMES, an instance on standard input. It trusts its input. The bench of gadgets
// takes it as the measure of the work.
#include <algorithm>
#include <cstdint>
#include <cstdio>
#include <cstdlib>
#include <string>
#include <vector>

struct Edge {
    uint32_t u, v;
    int64_t w;
};

struct Line {
    uint32_t u, v;
    int64_t w;
    long capacity;
};

static size_t n;
static std::vector<Line> lines;
static std::vector<uint32_t> values, lows;  // with bounds the values are the greatest degrees

static void read(bool ones, bool bounds) {
    char text[256];
    while (fgets(text, sizeof text, stdin)) {
        unsigned u, v;
        long w, c;
        if (text[0] == 'p') {
            sscanf(text, "p edge %zu", &n);
            values.assign(n, ones ? 1 : 0);
            lows.assign(n, 0);
        } else if (text[0] == 'e') {
            int got = sscanf(text, "e %u %u %ld %ld", &u, &v, &w, &c);
            lines.push_back({u, v, w, got == 4 ? c : -1});
        } else if (text[0] == 'n') {
            unsigned high = 0;
            sscanf(text, "n %u %u %u", &u, &v, &high);
            values[u - 1] = bounds ? high : v;
            lows[u - 1] = bounds ? v : 0;
        }
    }
}

static void rectangle(std::vector<Edge> &edges, uint32_t first, uint32_t m, uint32_t second, uint32_t k, int64_t w) {
    for (uint32_t a = 1; a <= m; a++)
        for (uint32_t b = 1; b <= k; b++) edges.push_back({first + a, second + b, w});
}

static std::vector<Edge> doubled() {
    std::vector<Edge> edges;
    edges.reserve(2 * lines.size() + n);
    uint32_t by = static_cast<uint32_t>(n);
    for (const Line &e : lines) {
        edges.push_back({e.u, e.v, -e.w});
        edges.push_back({e.u + by, e.v + by, -e.w});
    }
    for (uint32_t t = 1; t <= by; t++) edges.push_back({t, t + by, 0});
    return edges;
}

static std::vector<Edge> copied(bool gates, bool unit) {
    std::vector<uint32_t> before(n + 1, 0);
    for (size_t t = 0; t < n; t++) before[t + 1] = before[t] + values[t];
    uint32_t next = before[n];
    auto room_of = [&](const Line &e) {
        uint32_t room = std::min(values[e.u - 1], values[e.v - 1]);
        if (unit) return std::min(room, 1u);
        return e.capacity >= 0 ? std::min(room, static_cast<uint32_t>(e.capacity)) : room;
    };
    size_t count = 0;
    for (const Line &e : lines) {
        size_t m = values[e.u - 1], k = values[e.v - 1], room = room_of(e);
        count += gates ? room * (m + room + k) : m * k;
    }
    std::vector<Edge> edges;
    edges.reserve(count);
    for (const Line &e : lines) {
        uint32_t m = values[e.u - 1], k = values[e.v - 1];
        if (!gates) {
            rectangle(edges, before[e.u - 1], m, before[e.v - 1], k, e.w);
            continue;
        }
        uint32_t room = room_of(e);
        rectangle(edges, before[e.u - 1], m, next, room, e.w);
        rectangle(edges, next, room, next + room, room, 0);
        rectangle(edges, next + room, room, before[e.v - 1], k, 0);
        next += 2 * room;
    }
    return edges;
}

static std::vector<Edge> ports(bool postman) {
    std::vector<uint32_t> size(n, 0);
    for (const Line &e : lines) size[e.u - 1]++, size[e.v - 1]++;
    std::vector<uint32_t> next(n, 0), before(n, 0);
    uint32_t total = 0;
    for (size_t t = 0; t < n; t++) {
        uint32_t odd = postman ? size[t] % 2 : values[t] % 2;
        size[t] += (size[t] + odd) % 2;
        next[t] = before[t] = total;
        total += size[t];
    }
    size_t count = lines.size();
    for (size_t k : size) count += k * (k - 1) / 2;
    std::vector<Edge> edges;
    edges.reserve(count);
    for (const Line &e : lines) {
        uint32_t u = ++next[e.u - 1], v = ++next[e.v - 1];
        edges.push_back({u, v, e.w});
    }
    for (size_t t = 0; t < n; t++)
        for (uint32_t a = 1; a < size[t]; a++)
            for (uint32_t b = a + 1; b <= size[t]; b++) edges.push_back({before[t] + a, before[t] + b, 0});
    return edges;
}

static std::vector<Edge> halves() {
    std::vector<Edge> edges = copied(true, false);
    size_t half = edges.size(), spare = 0;
    uint32_t by = 0, before = 0;
    for (const Line &e : lines) {
        uint32_t room = std::min(values[e.u - 1], values[e.v - 1]);
        by += 2 * (e.capacity >= 0 ? std::min(room, static_cast<uint32_t>(e.capacity)) : room);
    }
    for (size_t t = 0; t < n; t++) by += values[t], spare += values[t] - lows[t];
    edges.reserve(2 * half + spare);
    for (size_t k = 0; k < half; k++) edges.push_back({edges[k].u + by, edges[k].v + by, edges[k].w});
    for (size_t t = 0; t < n; t++) {
        for (uint32_t a = lows[t] + 1; a <= values[t]; a++) edges.push_back({before + a, before + a + by, 0});
        before += values[t];
    }
    return edges;
}

static std::vector<Edge> sides(bool odd) {
    std::vector<uint32_t> first(n, 0), second(n, 0);
    uint32_t ends = 0, next = 0;
    std::vector<bool> here(n), there(n);
    for (size_t t = 0; t < n; t++) {
        bool end = values[t] % 2 == 1;
        here[t] = odd || !(end && ends == 1);
        there[t] = odd ? !end : !(end && ends == 0);
        ends += end;
    }
    for (size_t t = 0; t < n; t++) if (here[t]) first[t] = ++next;
    for (size_t t = 0; t < n; t++) if (there[t]) second[t] = ++next;
    std::vector<Edge> edges;
    edges.reserve(2 * lines.size() + n);
    for (const Line &e : lines) {
        if (e.u == e.v) continue;
        if (here[e.u - 1] && here[e.v - 1]) edges.push_back({first[e.u - 1], first[e.v - 1], e.w});
        if (there[e.u - 1] && there[e.v - 1]) edges.push_back({second[e.u - 1], second[e.v - 1], e.w});
    }
    for (size_t t = 0; t < n; t++) if (here[t] && there[t]) edges.push_back({first[t], second[t], 0});
    return edges;
}

static std::vector<Edge> built(const std::string &kind) {
    if (kind == "match") return doubled();
    if (kind == "bmatch") return copied(false, false);
    if (kind == "capmatch" || kind == "ffactor") return copied(true, kind == "ffactor");
    if (kind == "interval") return halves();
    if (kind == "oddpath" || kind == "evenpath") return sides(kind == "oddpath");
    return ports(kind == "postman");
}

int main(int count, char **words) {
    std::string kind = words[1];
    read(kind == "bmatch" || kind == "capmatch" || kind == "ffactor" || kind == "interval", kind == "interval");
    size_t made = 0;
    for (int turn = 0; turn < atoi(words[2]); turn++) {
        std::vector<Edge> edges = built(kind);
        made += edges.size() + edges[edges.size() / 2].u;
    }
    return count == 3 && made != 1 ? 0 : 1;
}
