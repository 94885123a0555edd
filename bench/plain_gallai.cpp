// The peer of `solve gallai`: Edmonds' search for a matching of greatest size, one tree at a time
// from each vertex that the first matching misses. A tree that finds no way to another such vertex
// stays, and no later tree enters it: at the end the outer vertices of these trees are D(G), their
// inner ones A(G). It prints the size of the matching and the two sets as the lines `d` and `u` of
// a document.
#include "special_instance.hpp"

class Search {
  public:
    explicit Search(const Instance &instance)
        : at(instance), count(instance.vertices), mate(count, -1), parent(count, -1),
          label(count, free), base(count), seen(count, 0) {
        for (int v = 0; v < count; v++) base[v] = v;
        greedy();
        for (int v = 0; v < count; v++)
            if (mate[v] < 0) grow(v);
    }

    int size() const {
        int matched = 0;
        for (int v = 0; v < count; v++) matched += mate[v] >= 0;
        return matched / 2;
    }

    void print(char letter, int wanted) const {
        std::vector<int> members;
        for (int v = 0; v < count; v++)
            if (label[v] == wanted) members.push_back(v + 1);
        std::printf("%c %zu", letter, members.size());
        for (const int v : members) std::printf(" %d", v);
        std::puts("");
    }

    static constexpr int free = 0, outer = 1, inner = 2;

  private:
    void greedy() {
        for (int v = 0; v < count; v++) {
            for (int k = at.first[v]; mate[v] < 0 && k < at.first[v + 1]; k++) {
                const int other = at.arcs[k].other;
                if (mate[other] >= 0) continue;
                mate[v] = other;
                mate[other] = v;
            }
        }
    }

    // The vertex that stands for the blossom around v; the way to it is halved.
    int top(int v) {
        while (base[v] != v) v = base[v] = base[base[v]];
        return v;
    }

    // The tree of one vertex, until it reaches another one that isn't matched.
    void grow(int root) {
        queue.clear();
        label[root] = outer;
        queue.push_back(root);
        met.assign(1, root);
        for (std::size_t next = 0; next < queue.size(); next++) {
            const int v = queue[next];
            for (int k = at.first[v]; k < at.first[v + 1]; k++) {
                if (look(v, at.arcs[k].other)) {
                    forget();
                    return;
                }
            }
        }
    }

    // Looks at an edge from an outer vertex, and answers whether it ended the tree.
    bool look(int v, int other) {
        if (label[other] == free && mate[other] < 0) {
            augment(v, other);
            return true;
        }
        if (label[other] == free) {
            parent[other] = v;
            label[other] = inner;
            enter(mate[other]);
            met.push_back(other);
            met.push_back(mate[other]);
        } else if (label[other] == outer && top(v) != top(other)) {
            const int meeting = common(v, other);
            shrink(v, other, meeting);
            shrink(other, v, meeting);
        }
        return false;
    }

    void enter(int v) {
        label[v] = outer;
        queue.push_back(v);
    }

    // Where the two ways to the root meet.
    int common(int a, int b) {
        stamp++;
        for (a = top(a), b = top(b);; std::swap(a, b)) {
            if (a < 0) continue;
            if (seen[a] == stamp) return a;
            seen[a] = stamp;
            a = mate[a] < 0 ? -1 : top(parent[mate[a]]);
        }
    }

    // One side of a circuit becomes part of the blossom.
    void shrink(int v, int other, int meeting) {
        while (top(v) != meeting) {
            parent[v] = other;
            other = mate[v];
            if (label[other] == inner) enter(other);
            if (base[v] == v) base[v] = meeting;
            if (base[other] == other) base[other] = meeting;
            v = parent[other];
        }
    }

    void augment(int v, int other) {
        while (v >= 0) {
            const int next = mate[v];
            mate[v] = other;
            mate[other] = v;
            other = next;
            v = next < 0 ? -1 : parent[next];
        }
    }

    void forget() {
        for (const int v : met) {
            label[v] = free;
            base[v] = v;
        }
    }

    Incidence at;
    int count;
    std::vector<int> mate, parent, label, base, seen, queue, met;
    int stamp = 0;
};

int main() {
    const Instance instance = read_instance();
    const Search search(instance);
    std::printf("%d\n", search.size());
    search.print('d', Search::outer);
    search.print('u', Search::inner);
}
