// The floor that docs/PERFORMANCE.md compares single calls with: an in-place B-tree over pages of the file's form, quadtrees
// of nodes, and one pass over the pages. It takes the arguments of crates/quilt_bench, draws the same numbers, and prints the
// same lines, but for `audit`. `form-of-file FILE` reads the pages of a map file's tree from the file and checks their form, ten
// times, and prints the least times. Build: c++ -O2 -std=c++20 -g -o bench-trees tools/bench-trees.cpp
#include <algorithm>
#include <cstdint>
#include <cstdio>
#include <cstdlib>
#include <cstring>
#include <ctime>
#include <fcntl.h>
#include <memory>
#include <string>
#include <sys/stat.h>
#include <unistd.h>
#include <vector>

using u8 = uint8_t;
using u16 = uint16_t;
using u32 = uint32_t;
using u64 = uint64_t;

struct Dice {
    u64 state;
    u32 below(u32 bound) {
        state = state * 6364136223846793005u + 1442695040888963407u;
        return bound ? u32(state >> 33) % bound : 0;
    }
};

// ---- records and pages

struct Key {
    u16 layer;
    u8 part;
    u32 code;
    u8 depth;
    u32 item;
};
struct Record {
    Key key;
    u8 value[16];
};
using Number = unsigned __int128;

static Number number_of(const Key &k) {
    u64 front = u64(k.layer) << 48 | u64(k.part) << 40 | u64(k.code) << 8 | k.depth;
    return Number(front) << 64 | k.item;
}

constexpr int MOST_RECORDS = 144, LEAST_RECORDS = 72, MOST_CHILDREN = 254, LEAST_CHILDREN = 127, RECORD = 28, KEY = 12;

struct Page {
    u8 bytes[4096];
    int count() const { return bytes[2] << 8 | bytes[3]; }
    void set_count(int n) { bytes[2] = u8(n >> 8), bytes[3] = u8(n); }
    u8 *record(int i) { return bytes + 64 + RECORD * i; }
    u8 *key(int i) { return bytes + 1024 + KEY * i; }
    u8 *child_at(int i) { return bytes + 8 + 4 * i; }
    u32 child(int i) {
        u32 n;
        memcpy(&n, child_at(i), 4);
        return __builtin_bswap32(n);
    }
    void set_child(int i, u32 page) {
        page = __builtin_bswap32(page);
        memcpy(child_at(i), &page, 4);
    }
};

static Number number_in(const u8 *at) {
    u64 front;
    u32 item;
    memcpy(&front, at, 8);
    memcpy(&item, at + 8, 4);
    return Number(__builtin_bswap64(front)) << 64 | __builtin_bswap32(item);
}
static void put_key(u8 *at, Number k) {
    u64 front = __builtin_bswap64(u64(k >> 64));
    u32 item = __builtin_bswap32(u32(k));
    memcpy(at, &front, 8);
    memcpy(at + 8, &item, 4);
}
// How many of the keys are below one, or at most it.
static int below(const u8 *keys, int width, int n, Number k) {
    int low = 0, high = n;
    while (low < high) {
        int middle = (low + high) / 2;
        if (number_in(keys + width * middle) < k) low = middle + 1;
        else high = middle;
    }
    return low;
}
static int up_to(const u8 *keys, int width, int n, Number k) {
    int low = 0, high = n;
    while (low < high) {
        int middle = (low + high) / 2;
        if (number_in(keys + width * middle) <= k) low = middle + 1;
        else high = middle;
    }
    return low;
}

struct Tree {
    std::vector<Page> pages;
    std::vector<u32> free;
    u32 root = 0, records = 0;
    int height = 0;
    u32 path[4];
    int places[4];

    explicit Tree(u32 records) {
        u32 size = std::min(records / 64 + 16, 30000u);
        pages.resize(size);
        for (u32 page = size - 1; page > 0; --page) free.push_back(page);
    }
    u32 take(u8 kind, int height) {
        u32 page = free.back();
        free.pop_back();
        memset(pages[page].bytes, 0, 4096);
        pages[page].bytes[0] = kind, pages[page].bytes[1] = u8(height);
        return page;
    }
    // Goes down to the leaf of a key, and answers the bound below which the leaf's keys stay.
    Number descend(Number k) {
        Number high = ~Number(0);
        u32 page = root;
        for (int h = height; h > 1; --h) {
            Page &p = pages[page];
            int n = p.count() - 1, i = up_to(p.key(0), KEY, n, k);
            if (i < n) high = number_in(p.key(i));
            path[h] = page, places[h] = i;
            page = p.child(i);
        }
        path[1] = page;
        return high;
    }
    void put_child(int h, Number key, u32 child) {
        if (h > height) {
            u32 page = take(2, h);
            pages[page].set_count(1);
            pages[page].set_child(0, root);
            root = path[h] = page, places[h] = 0, height = h;
        }
        Page *p = &pages[path[h]];
        int n = p->count(), i = places[h];
        if (n == MOST_CHILDREN) {
            u32 right = take(2, h);
            p = &pages[path[h]];
            Page &r = pages[right];
            Number parting = split_inner(*p, r, i, key, child);
            put_child(h + 1, parting, right);
            return;
        }
        put_both(*p, i, i + 1, key, child);
    }
    // Puts key i and child j in.
    static void put_both(Page &p, int i, int j, Number key, u32 child) {
        int n = p.count();
        memmove(p.key(i + 1), p.key(i), KEY * (n - 1 - i));
        put_key(p.key(i), key);
        memmove(p.child_at(j + 1), p.child_at(j), 4 * (n - j));
        p.set_child(j, child);
        p.set_count(n + 1);
    }
    static Number split_inner(Page &p, Page &r, int i, Number key, u32 child) {
        u8 keys[KEY * MOST_CHILDREN], children[4 * (MOST_CHILDREN + 1)];
        memcpy(keys, p.key(0), KEY * i);
        put_key(keys + KEY * i, key);
        memcpy(keys + KEY * (i + 1), p.key(i), KEY * (MOST_CHILDREN - 1 - i));
        memcpy(children, p.child_at(0), 4 * (i + 1));
        u32 page = __builtin_bswap32(child);
        memcpy(children + 4 * (i + 1), &page, 4);
        memcpy(children + 4 * (i + 2), p.child_at(i + 1), 4 * (MOST_CHILDREN - 1 - i));
        memset(p.bytes + 8, 0, 4088);
        memcpy(p.key(0), keys, KEY * 126);
        memcpy(p.child_at(0), children, 4 * 127);
        memcpy(r.key(0), keys + KEY * 127, KEY * 127);
        memcpy(r.child_at(0), children + 4 * 127, 4 * 128);
        p.set_count(127), r.set_count(128);
        return number_in(keys + KEY * 126);
    }
    static void put_record(Page &p, int i, Number key, const u8 *value) {
        int n = p.count();
        memmove(p.record(i + 1), p.record(i), RECORD * (n - i));
        put_key(p.record(i), key);
        memcpy(p.record(i) + KEY, value, 16);
        p.set_count(n + 1);
    }
    void insert_split(Number key, const u8 *value) {
        u32 right = take(1, 1);
        Page &p = pages[path[1]], &r = pages[right];
        int i = below(p.record(0), RECORD, MOST_RECORDS, key), stay = i < 72 ? 71 : 72;
        memcpy(r.record(0), p.record(stay), RECORD * (MOST_RECORDS - stay));
        memset(p.record(stay), 0, RECORD * (MOST_RECORDS - stay));
        p.set_count(stay), r.set_count(MOST_RECORDS - stay);
        if (i < 72) put_record(p, i, key, value);
        else put_record(r, i - 72, key, value);
        put_child(2, number_in(r.record(0)), right);
    }
    void insert_all(const Record *run, size_t n) {
        size_t done = 0;
        if (height == 0 && n > 0) root = take(1, 1), height = 1;
        while (done < n) {
            Number high = descend(number_of(run[done].key));
            Page &p = pages[path[1]];
            while (done < n && p.count() < MOST_RECORDS) {
                Number k = number_of(run[done].key);
                if (k >= high) break;
                put_record(p, below(p.record(0), RECORD, p.count(), k), k, run[done].value);
                ++done, ++records;
            }
            if (done < n && p.count() == MOST_RECORDS) {
                Number k = number_of(run[done].key);
                if (k < high) insert_split(k, run[done].value), ++done, ++records;
            }
        }
    }
    void drop_record(Page &p, int i) {
        int n = p.count();
        memmove(p.record(i), p.record(i + 1), RECORD * (n - 1 - i));
        memset(p.record(n - 1), 0, RECORD);
        p.set_count(n - 1);
    }
    void mend_leaves() {
        Page &up = pages[path[2]];
        int i = places[2], j = i + 1 < up.count() ? i : i - 1;
        u32 left = up.child(j), right = up.child(j + 1);
        Page &l = pages[left], &r = pages[right];
        int a = l.count(), b = r.count();
        if (a + b <= MOST_RECORDS) {
            memcpy(l.record(a), r.record(0), RECORD * b);
            l.set_count(a + b);
            free.push_back(right);
            drop_child(2, j);
            return;
        }
        if (a < LEAST_RECORDS) {
            memcpy(l.record(a), r.record(0), RECORD);
            l.set_count(a + 1);
            drop_record(r, 0);
        } else {
            memmove(r.record(1), r.record(0), RECORD * b);
            memcpy(r.record(0), l.record(a - 1), RECORD);
            r.set_count(b + 1);
            drop_record(l, a - 1);
        }
        memcpy(up.key(j), r.record(0), KEY);
    }
    // Takes key j and the child behind it out.
    void drop_child(int h, int j) {
        Page &p = pages[path[h]];
        int n = p.count();
        if (n == 2) {
            root = p.child(0), height = h - 1;
            free.push_back(path[h]);
            return;
        }
        take_both(p, j, j + 1);
        if (n - 1 < LEAST_CHILDREN && h < height) mend_inners(h + 1);
    }
    static void take_both(Page &p, int i, int j) {
        int n = p.count();
        memmove(p.key(i), p.key(i + 1), KEY * (n - 2 - i));
        memset(p.key(n - 2), 0, KEY);
        memmove(p.child_at(j), p.child_at(j + 1), 4 * (n - 1 - j));
        p.set_child(n - 1, 0);
        p.set_count(n - 1);
    }
    void mend_inners(int h) {
        Page &up = pages[path[h]];
        int i = places[h], j = i + 1 < up.count() ? i : i - 1;
        u32 left = up.child(j), right = up.child(j + 1);
        Page &l = pages[left], &r = pages[right];
        int a = l.count(), b = r.count();
        Number key = number_in(up.key(j));
        if (a + b <= MOST_CHILDREN) {
            put_key(l.key(a - 1), key);
            memcpy(l.key(a), r.key(0), KEY * (b - 1));
            memcpy(l.child_at(a), r.child_at(0), 4 * b);
            l.set_count(a + b);
            free.push_back(right);
            drop_child(h, j);
        } else if (a < LEAST_CHILDREN) {
            put_key(up.key(j), number_in(r.key(0)));
            put_both(l, a - 1, a, key, r.child(0));
            take_both(r, 0, 0);
        } else {
            put_key(up.key(j), number_in(l.key(a - 2)));
            put_both(r, 0, 0, key, l.child(a - 1));
            take_both(l, a - 2, a - 1);
        }
    }
    void remove_all(const Key *run, size_t n) {
        size_t done = 0;
        while (done < n) {
            Number high = descend(number_of(run[done]));
            Page &p = pages[path[1]];
            int least = height == 1 ? 1 : LEAST_RECORDS;
            while (done < n) {
                Number k = number_of(run[done]);
                if (k >= high) break;
                if (p.count() == 1) {
                    free.push_back(root);
                    root = 0, height = 0, records = 0;
                    return;
                }
                bool is_short = p.count() <= least;
                int i = below(p.record(0), RECORD, p.count(), k);
                if (i == p.count() || number_in(p.record(i)) != k) abort();
                drop_record(p, i);
                ++done, --records;
                if (is_short && height > 1) {
                    mend_leaves();
                    break;
                }
            }
        }
    }
    __attribute__((noinline)) const u8 *get(const Key &key) {
        Number k = number_of(key);
        u32 page = root;
        for (int h = height; h > 1; --h) {
            Page &p = pages[page];
            page = p.child(up_to(p.key(0), KEY, p.count() - 1, k));
        }
        Page &p = pages[page];
        int i = below(p.record(0), RECORD, p.count(), k);
        return i < p.count() && number_in(p.record(i)) == k ? p.record(i) + KEY : nullptr;
    }
    __attribute__((noinline)) const u8 *floor(const Key &key) {
        Number k = number_of(key);
        u32 page = root, before = 0;
        int below_before = 0;
        for (int h = height; h > 1; --h) {
            Page &p = pages[page];
            int i = up_to(p.key(0), KEY, p.count() - 1, k);
            if (i > 0) before = p.child(i - 1), below_before = h - 1;
            page = p.child(i);
        }
        int i = up_to(pages[page].record(0), RECORD, pages[page].count(), k);
        if (i > 0) return pages[page].record(i - 1);
        if (below_before == 0) return nullptr;
        for (int h = below_before; h > 1; --h) before = pages[before].child(pages[before].count() - 1);
        return pages[before].record(pages[before].count() - 1);
    }
    // Goes over all records in the order of their keys, and sums their codes.
    __attribute__((noinline)) u64 walk() {
        u64 sum = 0;
        Number high = 0;
        while (height > 0 && high != ~Number(0)) {
            high = descend(high);
            Page &p = pages[path[1]];
            for (int i = 0, n = p.count(); i < n; ++i) sum += u32(number_in(p.record(i)) >> 72);
        }
        return sum;
    }
    static bool is_clear(const u8 *from, const u8 *to) {
        static const u8 zeros[4096] = {};
        return memcmp(from, zeros, to - from) == 0;
    }
    static bool rises(const u8 *keys, int width, int n) {
        for (int i = 1; i < n; ++i)
            if (number_in(keys + width * (i - 1)) >= number_in(keys + width * i)) return false;
        return true;
    }
    // Whether the page is well formed in a file of `size` home pages.
    static bool is_sound(Page &p, u32 size) {
        int n = p.count();
        if (p.bytes[0] == 1)
            return p.bytes[1] == 1 && n >= 1 && n <= MOST_RECORDS && is_clear(p.bytes + 4, p.bytes + 64)
                && is_clear(p.record(n), p.bytes + 4096) && rises(p.record(0), RECORD, n);
        if (p.bytes[0] != 2 || (p.bytes[1] != 2 && p.bytes[1] != 3) || n < 2 || n > MOST_CHILDREN) return false;
        for (int i = 0; i < n; ++i)
            if (p.child(i) < 1 || p.child(i) >= size) return false;
        return is_clear(p.bytes + 4, p.bytes + 8) && is_clear(p.child_at(n), p.bytes + 1024)
            && is_clear(p.key(n - 1), p.bytes + 4096) && rises(p.key(0), KEY, n - 1);
    }
    // Reads each page in use, and checks its form.
    __attribute__((noinline)) u64 well_formed() {
        std::vector<bool> is_free(pages.size());
        for (u32 page : free) is_free[page] = true;
        u64 count = 0;
        for (u32 page = 1; page < pages.size(); ++page) {
            if (is_free[page]) continue;
            Page copy = pages[page];
            count += is_sound(copy, u32(pages.size()));
        }
        return count;
    }
};

// ---- a map file

struct Times {
    double processor, elapsed;
};
static double milliseconds(clockid_t clock) {
    timespec now;
    clock_gettime(clock, &now);
    return double(now.tv_sec) * 1e3 + double(now.tv_nsec) / 1e6;
}

struct MapFile {
    int file;
    u32 size;
    u64 sound = 0;
    // Reads a home page, which stands behind the label, the gate and the directory.
    bool read(u32 page, Page &into) const { return pread(file, into.bytes, 4096, off_t(3 + page) * 4096) == 4096; }
    void visit(u32 page, int height) {
        Page p;
        if (!read(page, p) || !Tree::is_sound(p, size)) return;
        ++sound;
        if (height == 1) return;
        for (int i = 0; i < p.count(); ++i) visit(p.child(i), height - 1);
    }
};
// How many pages of the tree of a map file are well formed. The file's gate is closed, so that its home pages count.
static u64 sound_pages(const char *path) {
    MapFile map{open(path, O_RDONLY), 0};
    struct stat told;
    if (map.file < 0 || fstat(map.file, &told) != 0) exit(1);
    map.size = u32(told.st_size / 4096 - 3) / 2;
    Page head;
    if (!map.read(0, head) || memcmp(head.bytes, "QHDR", 4) != 0) exit(1);
    u32 root;
    memcpy(&root, head.bytes + 16, 4);
    int height = head.bytes[13];
    if (height > 0) map.visit(__builtin_bswap32(root), height);
    close(map.file);
    return map.sound;
}
static void print_form_of_file(const char *path) {
    Times least{1e9, 1e9};
    u64 sound = 0;
    for (int i = 0; i < 10; ++i) {
        double processor = milliseconds(CLOCK_PROCESS_CPUTIME_ID), elapsed = milliseconds(CLOCK_MONOTONIC);
        sound = sound_pages(path);
        least.processor = std::min(least.processor, milliseconds(CLOCK_PROCESS_CPUTIME_ID) - processor);
        least.elapsed = std::min(least.elapsed, milliseconds(CLOCK_MONOTONIC) - elapsed);
    }
    printf("form-of-file %llu pages, processor %.2f ms, elapsed %.2f ms\n", (unsigned long long)sound, least.processor, least.elapsed);
}

// ---- quadtrees

struct Node {
    int first = -1; // of four quarters that stand together, or -1
    u16 colour = 0;
};
struct Quadtree {
    int level;
    std::vector<Node> nodes = std::vector<Node>(1);
    u32 drawn = 0;

    Quadtree(int level, u64 seed) : level(level) {
        Dice dice{seed};
        build(0, 0, level, dice);
    }
    void build(int node, u32 code, int depth, Dice &dice) {
        if (depth == 0) {
            if (code % 4 == 0) drawn = dice.below(65536);
            u16 colour = u16(drawn / 256 % 256);
            nodes[node].colour = drawn % 256 < 108 ? u16(256 * (code % 4) + colour) : colour;
            return;
        }
        int first = int(nodes.size());
        nodes.resize(first + 4);
        for (int q = 0; q < 4; ++q) build(first + q, code + (u32(q) << (2 * depth - 2)), depth - 1, dice);
        Node *four = &nodes[first];
        bool is_one = true;
        for (int q = 0; q < 4; ++q) is_one &= four[q].first < 0 && four[q].colour == four[0].colour;
        if (is_one) {
            nodes[node].colour = four[0].colour;
            nodes.resize(first);
        } else {
            nodes[node].first = first;
        }
    }
    Record record(u32 code, int depth, u16 colour) const {
        return Record{{1, 1, code, u8(level - depth), 0}, {u8(colour), u8(colour >> 8)}};
    }
    void add(std::vector<Record> &records, int node, u32 code, int depth) const {
        if (nodes[node].first < 0) {
            records.push_back(record(code, depth, nodes[node].colour));
            return;
        }
        for (int q = 0; q < 4; ++q) add(records, nodes[node].first + q, code + (u32(q) << (2 * depth - 2)), depth - 1);
    }
    // The records that go and those that come when one pixel gets a colour.
    __attribute__((noinline)) u64 paint(u32 code, u16 colour) const {
        std::vector<Record> gone, come;
        int path[13], node = 0, depth = level;
        while (nodes[node].first >= 0) {
            path[depth--] = node;
            node = nodes[node].first + (code >> (2 * depth) & 3);
        }
        if (nodes[node].colour == colour) return 0;
        u32 start = code >> (2 * depth) << (2 * depth);
        int top = depth;
        while (depth == 0 && top < level && is_alike(path[top + 1], node, colour)) node = path[++top];
        if (top > depth) {
            start = code >> (2 * top) << (2 * top);
            add(gone, node, start, top);
            come.push_back(record(start, top, colour));
            return gone.size() + come.size();
        }
        gone.push_back(record(start, depth, nodes[node].colour));
        split(come, start, depth, nodes[node].colour, code, colour);
        return gone.size() + come.size();
    }
    bool is_alike(int parent, int but, u16 colour) const {
        for (int q = 0; q < 4; ++q) {
            int child = nodes[parent].first + q;
            if (child != but && (nodes[child].first >= 0 || nodes[child].colour != colour)) return false;
        }
        return true;
    }
    void split(std::vector<Record> &come, u32 start, int depth, u16 old, u32 code, u16 colour) const {
        if (depth == 0) {
            come.push_back(record(start, 0, colour));
            return;
        }
        for (u32 q = 0; q < 4; ++q) {
            u32 quarter = start + (q << (2 * depth - 2));
            if (code >> (2 * depth - 2) == quarter >> (2 * depth - 2)) split(come, quarter, depth - 1, old, code, colour);
            else come.push_back(record(quarter, depth - 1, old));
        }
    }
    // The records that go and those that come when the map becomes another one.
    void replace(const Quadtree &other, int a, int b, u32 code, int depth, std::vector<Record> &gone, std::vector<Record> &come) const {
        const Node &x = nodes[a], &y = other.nodes[b];
        if (x.first < 0 || y.first < 0) {
            if (x.first < 0 && y.first < 0 && x.colour == y.colour) return;
            add(gone, a, code, depth);
            other.add(come, b, code, depth);
            return;
        }
        for (int q = 0; q < 4; ++q)
            replace(other, x.first + q, y.first + q, code + (u32(q) << (2 * depth - 2)), depth - 1, gone, come);
    }
    __attribute__((noinline)) u64 replaced(const Quadtree &other) const {
        std::vector<Record> gone, come;
        replace(other, 0, 0, 0, level, gone, come);
        return gone.size();
    }
};

// ---- what is measured

constexpr size_t RUN = 1000;

static Key key_with(u32 code) { return Key{1, 1, code, 12, 0}; }
static Record record_of(u32 number) {
    Record r{key_with(number * 2), {}};
    memset(r.value, number % 251, 16);
    return r;
}
static Tree filled(u32 records, u32 calls) {
    Tree tree(records);
    std::vector<Record> run;
    for (u32 number = 0; number < records; ++number) {
        run.push_back(record_of(number));
        if (run.size() < RUN) continue;
        if (calls > 0) tree.insert_all(run.data(), run.size());
        run.clear();
    }
    if (calls > 0) tree.insert_all(run.data(), run.size());
    return tree;
}
static u64 drained(u32 records, u32 calls) {
    Tree tree = filled(records, 1);
    std::vector<Key> run;
    for (u32 number = 0; number < records; ++number) {
        run.push_back(key_with(number * 2));
        if (run.size() < RUN) continue;
        if (calls > 0) tree.remove_all(run.data(), run.size());
        run.clear();
    }
    if (calls > 0) tree.remove_all(run.data(), run.size());
    return tree.records;
}
static u32 spread(u32 n) {
    u32 code = 0;
    for (int i = 0; i < 12; ++i) code |= (n >> i & 1) << (2 * i);
    return code;
}
static Tree mapped(const Quadtree &map) {
    std::vector<Record> records;
    map.add(records, 0, 0, map.level);
    Tree tree(u32(records.size()));
    Record catalog{{0, 0, 0, 0, 1}, {'a', 0, 0, 0, 0, 0, 0, 0, 0, 0, 0, 0, 1}};
    tree.insert_all(&catalog, 1);
    for (size_t at = 0; at < records.size(); at += RUN) tree.insert_all(&records[at], std::min(RUN, records.size() - at));
    return tree;
}
static u64 measured(const std::string &word, u32 records, int level, u32 calls) {
    u64 sum = 0;
    Dice dice{7};
    if (word == "fill") return filled(records, calls).records;
    if (word == "drain") return drained(records, calls);
    if (word == "get" || word == "floor") {
        Tree tree = filled(records, 1);
        bool is_get = word == "get";
        for (u32 i = 0; i < calls; ++i) {
            Key k = key_with(dice.below(2 * records));
            const u8 *found = is_get ? tree.get(k) : tree.floor(k);
            if (found) sum += is_get ? found[0] : u32(number_in(found) >> 72);
        }
        return sum;
    }
    if (word == "walk") {
        Tree tree = filled(records, 1);
        for (u32 i = 0; i < calls; ++i) sum += tree.walk();
        return sum;
    }
    Quadtree map(level, 1);
    if (word == "rect") {
        for (u32 i = 0; i < calls; ++i) {
            u32 x = dice.below(1u << level), y = dice.below(1u << level);
            sum += map.paint(spread(x) | spread(y) << 1, 2000);
        }
        return sum;
    }
    if (word == "replace") {
        Quadtree other(level, 2);
        for (u32 i = 0; i < calls; ++i) sum += map.replaced(other);
        return sum;
    }
    Tree tree = mapped(map);
    for (u32 i = 0; i < calls; ++i) sum += tree.well_formed();
    return sum;
}

int main(int count, char **args) {
    auto number = [&](int i, u32 otherwise) { return i < count ? u32(atol(args[i])) : otherwise; };
    std::string wanted = count > 1 ? args[1] : "all";
    if (wanted == "form-of-file" && count > 2) print_form_of_file(args[2]);
    for (std::string word : {"fill", "drain", "get", "floor", "walk", "rect", "replace", "form"})
        if (wanted == "all" || wanted == word)
            printf("%s %llu\n", word.c_str(), (unsigned long long)measured(word, number(2, 20000), int(number(3, 6)), number(4, 10)));
}
