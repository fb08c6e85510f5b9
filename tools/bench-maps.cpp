// The floor that docs/PERFORMANCE.md compares the algebra of maps with: lists of leaves in the order of their codes, and cells
// of 16 bits where a map is moved, shown or measured. It takes the arguments of crates/quilt_bench, draws the same rasters, and
// prints the same lines. Build: c++ -O2 -std=c++20 -g -o bench-maps tools/bench-maps.cpp
#include <algorithm>
#include <cstdint>
#include <cstdio>
#include <cstdlib>
#include <string>
#include <vector>

using u8 = uint8_t;
using u16 = uint16_t;
using u32 = uint32_t;
using u64 = uint64_t;

struct Dice {
    u64 state;
    u32 below(u32 bound) {
        state = state * 6364136223846793005u + 1442695040888963407u;
        return bound ? u32(state >> 33) % bound : 0;
    }
};

// A block of 4 ^ exponent pixels of one colour, from its code on.
struct Leaf {
    u32 code;
    u8 exponent;
    u16 colour;
};
using Leaves = std::vector<Leaf>;
using Cells = std::vector<u16>;

static u32 gathered(u32 n) {
    n &= 0x55555555;
    n = (n | n >> 1) & 0x33333333;
    n = (n | n >> 2) & 0x0f0f0f0f;
    n = (n | n >> 4) & 0x00ff00ff;
    return (n | n >> 8) & 0xffff;
}

// The colours of a raster, row by row.
static Cells drawn_cells(int level, u64 seed) {
    u32 side = 1u << level, most = side / 8;
    Cells cells(size_t(side) * side);
    Dice dice{seed};
    for (u32 number = 0; number < side * side / 4096; ++number) {
        u32 left = dice.below(side), top = dice.below(side);
        u32 right = std::min(left + dice.below(most) + 1, side), bottom = std::min(top + dice.below(most) + 1, side);
        for (u32 y = top; y < bottom; ++y) std::fill(&cells[size_t(side) * y + left], &cells[size_t(side) * y] + right, u16(number % 3 + 1));
    }
    return cells;
}

// Adds a leaf, and joins it with its three siblings where all four have one colour.
static void push(Leaves &leaves, Leaf leaf) {
    leaves.push_back(leaf);
    while (leaves.size() >= 4 && (leaf.code >> 2 * leaf.exponent & 3) == 3) {
        Leaf *last = &leaves[leaves.size() - 4];
        for (int i = 0; i < 3; ++i)
            if (last[i].exponent != leaf.exponent || last[i].colour != leaf.colour) return;
        leaf = {last->code, u8(leaf.exponent + 1), leaf.colour};
        *last = leaf;
        leaves.resize(leaves.size() - 3);
    }
}

static void add_square(Leaves &leaves, const u16 *cells, u32 width, int exponent, u32 code) {
    if (exponent == 1) {
        u16 a = cells[0], b = cells[1], c = cells[width], d = cells[width + 1];
        if (a == b && a == c && a == d) return push(leaves, {code, 1, a});
        for (u16 colour : {a, b, c, d}) leaves.push_back({code++, 0, colour});
        return;
    }
    u32 half = 1u << (exponent - 1), area = half * half;
    add_square(leaves, cells, width, exponent - 1, code);
    add_square(leaves, cells + half, width, exponent - 1, code + area);
    add_square(leaves, cells + size_t(half) * width, width, exponent - 1, code + 2 * area);
    add_square(leaves, cells + size_t(half) * width + half, width, exponent - 1, code + 3 * area);
}

static Leaves leaves_of(const Cells &cells, int level) {
    Leaves leaves;
    add_square(leaves, cells.data(), 1u << level, level, 0);
    return leaves;
}

static Cells cells_of(const Leaves &leaves, int level) {
    u32 side = 1u << level;
    Cells cells(size_t(side) * side);
    for (Leaf leaf : leaves) {
        u16 *row = &cells[size_t(side) * gathered(leaf.code >> 1) + gathered(leaf.code)];
        u32 width = 1u << leaf.exponent;
        for (u32 y = 0; y < width; ++y, row += side) std::fill(row, row + width, leaf.colour);
    }
    return cells;
}

static std::string rendered(const Leaves &leaves, int level) {
    Cells cells = cells_of(leaves, level);
    u32 side = 1u << level;
    std::string text;
    text.reserve(size_t(side) * (2 * side + 1));
    for (u32 y = 0; y < side; ++y) {
        for (u32 x = 0; x < side; ++x) {
            u16 c = cells[size_t(side) * y + x];
            text += "0123456789abcdef"[c >> 4 & 15];
            text += "0123456789abcdef"[c & 15];
        }
        text += '\n';
    }
    return text;
}

static Leaves united(const Leaves &a, const Leaves &b) {
    Leaves leaves;
    size_t i = 0, j = 0;
    while (i < a.size()) {
        Leaf smaller = a[i].exponent < b[j].exponent ? a[i] : b[j];
        push(leaves, {smaller.code, smaller.exponent, a[i].colour ? a[i].colour : b[j].colour});
        u32 end = smaller.code + (1u << 2 * smaller.exponent);
        i += a[i].code + (1u << 2 * a[i].exponent) == end;
        j += b[j].code + (1u << 2 * b[j].exponent) == end;
    }
    return leaves;
}

static Leaves moved(const Leaves &leaves, int level, u32 dx, u32 dy) {
    Cells cells = cells_of(leaves, level), to(cells.size());
    u32 side = 1u << level;
    for (u32 y = dy; y < side; ++y) std::copy(&cells[size_t(side) * (y - dy)], &cells[size_t(side) * (y - dy)] + side - dx, &to[size_t(side) * y + dx]);
    return leaves_of(to, level);
}

static u64 perimeter(const Leaves &leaves, int level, u16 colour) {
    Cells cells = cells_of(leaves, level);
    u32 side = 1u << level;
    u64 sum = 0;
    for (u32 y = 0; y < side; ++y)
        for (u32 x = 0; x < side; ++x) {
            const u16 *cell = &cells[size_t(side) * y + x];
            bool here = *cell == colour;
            sum += here != (x && cell[-1] == colour);
            sum += here != (y && cell[-int(side)] == colour);
            sum += here && x + 1 == side;
            sum += here && y + 1 == side;
        }
    return sum;
}

static u64 measured(const std::string &word, int level, u32 calls) {
    Cells raster = drawn_cells(level, 1);
    u64 sum = 0;
    if (word == "leaves") {
        for (u32 i = 0; i < calls; ++i) sum += leaves_of(raster, level).size();
        return sum;
    }
    Leaves one = leaves_of(raster, level);
    Leaves other = word == "union" ? leaves_of(drawn_cells(level, 2), level) : Leaves();
    for (u32 i = 0; i < calls; ++i) {
        if (word == "render") sum += rendered(one, level).size();
        if (word == "union") sum += united(one, other).size();
        if (word == "shift") sum += moved(one, level, 3, 5).size();
        if (word == "perimeter") sum += perimeter(one, level, 1);
    }
    return sum;
}

int main(int count, char **args) {
    auto number = [&](int i, u32 otherwise) { return i < count ? u32(atol(args[i])) : otherwise; };
    std::string wanted = count > 1 ? args[1] : "all";
    for (std::string word : {"leaves", "render", "union", "shift", "perimeter"})
        if (wanted == "all" || wanted == word)
            printf("%s %llu\n", word.c_str(), (unsigned long long)measured(word, int(number(3, 6)), number(4, 10)));
}
