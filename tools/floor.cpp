// The floor that docs/PERFORMANCE.md compares the whole program with: the same texts and the same replies, on plain arrays, with one
// sync a publish, and without pages, a tree, an audit or a proof. A region is a byte for each pixel, a point layer a hash table and
// squares of 64 pixels, a line layer a list and squares of 32 pixels. It takes well formed texts of the commands that tools/measure
// times, and colours up to 255; of refusals it has those that such texts can meet.
// Build: c++ -O2 -std=c++20 -o floor tools/floor.cpp. Use: floor new FILE PAGES LEVEL, floor run FILE <commands
#include <algorithm>
#include <cstdint>
#include <cstdio>
#include <cstdlib>
#include <cstring>
#include <fcntl.h>
#include <map>
#include <memory>
#include <string>
#include <string_view>
#include <sys/mman.h>
#include <sys/stat.h>
#include <unistd.h>
#include <unordered_map>
#include <utility>
#include <vector>

using u8 = uint8_t;
using u16 = uint16_t;
using u32 = uint32_t;
using u64 = uint64_t;
using i64 = int64_t;
using std::string;
using std::string_view;
using std::vector;

static int side;
static string replies;

static void say(u64 n) {
    char digits[24];
    char *first = digits + sizeof digits;
    do *--first = char('0' + n % 10);
    while (n /= 10);
    replies.append(first, digits + sizeof digits - first);
}

template <class... Numbers>
static void say_row(u64 first, Numbers... more) {
    say(first);
    ((replies += ' ', say(u64(more))), ...);
    replies += '\n';
}

static void put_replies() {
    for (size_t done = 0; done < replies.size();) {
        ssize_t n = write(1, replies.data() + done, replies.size() - done);
        if (n <= 0) exit(3);
        done += size_t(n);
    }
    replies.clear();
}

// Fractions of numbers over 0, compared by products.
struct Fraction {
    i64 over, under;
};

static bool is_less(Fraction a, Fraction b) { return __int128(a.over) * b.under < __int128(b.over) * a.under; }

static void say_fraction(Fraction f) {
    i64 a = f.over, b = f.under;
    while (b) a = std::exchange(b, a % b);
    say(u64(f.over / a));
    replies += '/';
    say(u64(f.under / a));
}

struct Point {
    u16 x, y;
    u32 label;
};

struct Segment {
    u32 id;
    int x1, y1, x2, y2;
};

// Points in a hash table with a step of one, and their squares of 64 pixels.
struct Points {
    vector<Point> slots = vector<Point>(1024);
    vector<bool> is_taken = vector<bool>(1024);
    vector<vector<Point>> squares;
    vector<Point> fresh;
    size_t number = 0;
    int across;

    Points() : squares(size_t((side + 63) / 64) * ((side + 63) / 64)), across((side + 63) / 64) {}

    size_t slot_of(int x, int y) const {
        size_t i = (u32(y << 16 | x) * 2654435769u) >> 7 & (slots.size() - 1);
        while (is_taken[i] && (slots[i].x != x || slots[i].y != y)) i = (i + 1) & (slots.size() - 1);
        return i;
    }

    void grow() {
        vector<Point> old(slots.size() * 2);
        vector<bool> was_taken(slots.size() * 2);
        old.swap(slots);
        was_taken.swap(is_taken);
        for (size_t i = 0; i < old.size(); i++)
            if (was_taken[i]) fill(old[i]);
    }

    void fill(Point p) {
        size_t i = slot_of(p.x, p.y);
        slots[i] = p;
        is_taken[i] = true;
    }

    bool put(Point p) {
        if (is_taken[slot_of(p.x, p.y)]) return false;
        if (++number * 2 > slots.size()) grow();
        fill(p);
        squares[size_t(p.y / 64) * across + p.x / 64].push_back(p);
        return true;
    }
};

// Segments, and which of them have a box that touches each square of 32 pixels.
struct Lines {
    vector<Segment> all;
    std::unordered_map<u32, size_t> places;
    vector<u32> begins, listed, seen;
    u32 round = 0;
    size_t kept = 0;
    int across = 0;

    template <class F>
    void each_square(int x1, int y1, int x2, int y2, F f) const {
        int left = std::max(x1 / 32, 0), right = std::min(x2 / 32, across - 1);
        for (int y = std::max(y1 / 32, 0); y <= std::min(y2 / 32, across - 1); y++)
            for (int x = left; x <= right; x++) f(size_t(y) * across + x);
    }

    template <class F>
    void each_square_of(const Segment &s, F f) const {
        each_square(std::min(s.x1, s.x2), std::min(s.y1, s.y2), std::max(s.x1, s.x2), std::max(s.y1, s.y2), f);
    }

    void list_squares() {
        if (across) return;
        across = (side + 31) / 32;
        begins.assign(size_t(across) * across + 1, 0);
        for (auto &s : all) each_square_of(s, [&](size_t square) { begins[square + 1]++; });
        for (size_t i = 1; i < begins.size(); i++) begins[i] += begins[i - 1];
        listed.resize(begins.back());
        vector<u32> next(begins.begin(), begins.end() - 1);
        for (u32 i = 0; i < all.size(); i++) each_square_of(all[i], [&](size_t square) { listed[next[square]++] = i; });
        seen.assign(all.size(), 0);
    }

    // Each segment of a square that was not seen in this round.
    template <class F>
    void each_new(size_t square, F f) {
        for (u32 i = begins[square]; i < begins[square + 1]; i++)
            if (std::exchange(seen[listed[i]], round) != round) f(all[listed[i]]);
    }

    template <class F>
    void each_near(int x1, int y1, int x2, int y2, F f) {
        list_squares();
        round++;
        each_square(x1, y1, x2, y2, [&](size_t square) { each_new(square, f); });
    }

    bool put(const Segment &s) {
        if (!places.emplace(s.id, all.size()).second) return false;
        all.push_back(s);
        across = 0;
        return true;
    }
};

struct Layer {
    u8 *pixels = nullptr;
    vector<u8> own;
    bool is_whole = false;
    vector<u32> changed;
    std::unique_ptr<Points> points;
    std::unique_ptr<Lines> lines;
};

static std::map<string, Layer, std::less<>> layers;

static Layer &layer(string_view name) {
    auto found = layers.find(name);
    if (found == layers.end()) exit(64);
    return found->second;
}

static u8 *new_region(string_view name) {
    Layer &made = layers[string(name)];
    made.own.resize(size_t(side) * side);
    made.is_whole = true;
    return made.pixels = made.own.data();
}

// The file: a head of 4096 bytes, and behind it the editions, each a head with its length and the sum of its bytes, and what changed.
struct Head {
    char name[8];
    u64 level;
};

struct EditionHead {
    u64 bytes, sum;
};

struct PartHead {
    char kind, name[15];
    u64 bytes;
};

static int file;
static u64 file_end = 4096, edition = 0;

static u64 sum_of(const char *bytes, size_t n) {
    u64 sums[4] = {1, 2, 3, 4};
    for (; n >= 32; n -= 32, bytes += 32)
        for (int i = 0; i < 4; i++) {
            u64 word;
            memcpy(&word, bytes + 8 * i, 8);
            sums[i] = (sums[i] ^ word) * 0x9e3779b97f4a7c15u;
        }
    for (; n; n--, bytes++) sums[0] = (sums[0] ^ u8(*bytes)) * 0x9e3779b97f4a7c15u;
    return sums[0] ^ sums[1] ^ sums[2] ^ sums[3];
}

static void add_part(string &text, char kind, const string &name, const void *bytes, size_t n) {
    PartHead head = {kind, {}, n};
    name.copy(head.name, sizeof head.name);
    text.append(reinterpret_cast<const char *>(&head), sizeof head);
    text.append(static_cast<const char *>(bytes), n);
}

static void add_changes(string &text, const string &name, Layer &l) {
    if (l.pixels && l.is_whole) add_part(text, 'R', name, l.pixels, size_t(side) * side);
    if (l.pixels && !l.is_whole && !l.changed.empty()) add_part(text, 'C', name, l.changed.data(), l.changed.size() * sizeof(u32));
    if (l.points) add_part(text, 'P', name, l.points->fresh.data(), l.points->fresh.size() * sizeof(Point));
    if (l.lines) add_part(text, 'L', name, l.lines->all.data() + l.lines->kept, (l.lines->all.size() - l.lines->kept) * sizeof(Segment));
    l.is_whole = false;
    l.changed.clear();
    if (l.points) l.points->fresh.clear();
    if (l.lines) l.lines->kept = l.lines->all.size();
}

static void publish() {
    string text(sizeof(EditionHead), '\0');
    size_t room = 4096;
    for (auto &[name, l] : layers) room += l.is_whole ? size_t(side) * side : 0;
    text.reserve(room);
    for (auto &[name, l] : layers) add_changes(text, name, l);
    EditionHead head = {text.size() - sizeof head, sum_of(text.data() + sizeof head, text.size() - sizeof head)};
    memcpy(text.data(), &head, sizeof head);
    if (pwrite(file, text.data(), text.size(), off_t(file_end)) != ssize_t(text.size()) || fdatasync(file)) exit(3);
    file_end += text.size();
    edition++;
}

static void take_part(const PartHead &head, char *bytes) {
    Layer &l = layers[string(head.name, strnlen(head.name, sizeof head.name))];
    if (head.kind == 'R') l.pixels = reinterpret_cast<u8 *>(bytes);
    if (head.kind == 'C')
        for (u64 i = 0; i < head.bytes; i += 8) {
            u32 change[2];
            memcpy(change, bytes + i, sizeof change);
            l.pixels[change[0]] = u8(change[1]);
        }
    if (head.kind == 'P') {
        if (!l.points) l.points = std::make_unique<Points>();
        for (u64 i = 0; i < head.bytes; i += sizeof(Point)) {
            Point p;
            memcpy(&p, bytes + i, sizeof p);
            l.points->put(p);
        }
    }
    if (head.kind == 'L') {
        if (!l.lines) l.lines = std::make_unique<Lines>();
        for (u64 i = 0; i < head.bytes; i += sizeof(Segment)) {
            Segment s;
            memcpy(&s, bytes + i, sizeof s);
            l.lines->put(s);
        }
        l.lines->kept = l.lines->all.size();
    }
}

static void open_file(const char *path) {
    file = open(path, O_RDWR);
    struct stat found;
    if (file < 0 || fstat(file, &found)) exit(6);
    u64 size = u64(found.st_size);
    char *bytes = static_cast<char *>(mmap(nullptr, size, PROT_READ | PROT_WRITE, MAP_PRIVATE, file, 0));
    if (bytes == MAP_FAILED || size < 4096 || memcmp(bytes, "FLOOR", 6)) exit(5);
    Head head;
    memcpy(&head, bytes, sizeof head);
    side = 1 << head.level;
    while (file_end + sizeof(EditionHead) <= size) {
        EditionHead next;
        memcpy(&next, bytes + file_end, sizeof next);
        char *part = bytes + file_end + sizeof next, *end = part + next.bytes;
        if (end > bytes + size || sum_of(part, next.bytes) != next.sum) break;
        while (part < end) {
            PartHead of;
            memcpy(&of, part, sizeof of);
            take_part(of, part + sizeof of);
            part += sizeof of + of.bytes;
        }
        file_end += sizeof next + next.bytes;
        edition++;
    }
}

static int make_file(const char *path, int level) {
    file = open(path, O_RDWR | O_CREAT | O_EXCL, 0644);
    if (file < 0) return 7;
    char page[4096] = {};
    Head head = {"FLOOR", u64(level)};
    memcpy(page, &head, sizeof head);
    return pwrite(file, page, sizeof page, 0) == sizeof page && !fsync(file) ? 0 : 3;
}

// Rows of bits, 64 pixels a word, with room for the distance on each side; a row is widened by doubling, and then the columns.
struct Bits {
    size_t words;
    vector<u64> all;
    u64 *row(size_t y) { return all.data() + y * words; }
};

static void widen_row(u64 *row, size_t words, int by, bool is_left) {
    size_t whole = size_t(by) / 64;
    int part = by % 64;
    auto moved = [&](size_t i, size_t step, bool is_there) { return is_there ? row[is_left ? i + step : i - step] : 0; };
    for (size_t k = 0; k < words; k++) {
        size_t i = is_left ? k : words - 1 - k;
        size_t left = is_left ? words - 1 - i : i;
        u64 near = moved(i, whole, left >= whole), far = moved(i, whole + 1, left > whole);
        row[i] |= is_left ? near >> part | (part ? far << (64 - part) : 0) : near << part | (part ? far >> (64 - part) : 0);
    }
}

static void buffer(const u8 *from, int distance, u8 *to) {
    int r = std::min(distance, side);
    size_t before = size_t(r) / 64 + 1, rows = size_t(side) + 2 * size_t(r);
    Bits bits = {size_t(side + 63) / 64 + 2 * before, {}};
    bits.all.assign(rows * bits.words, 0);
    for (int y = 0; y < side; y++) {
        u64 *row = bits.row(size_t(y + r));
        for (int x = 0; x < side; x++) row[before + size_t(x) / 64] |= u64(from[size_t(y) * side + x] != 0) << x % 64;
        for (int done = 0, step; done < r; done += step) widen_row(row, bits.words, step = std::min(done + 1, r - done), false);
        for (int done = 0, step; done < r; done += step) widen_row(row, bits.words, step = std::min(done + 1, r - done), true);
    }
    for (size_t reach = 1, step; reach < 2 * size_t(r) + 1; reach += step) {
        step = std::min(reach, 2 * size_t(r) + 1 - reach);
        for (size_t i = 0; i < (rows - step) * bits.words; i++) bits.all[i] |= bits.all[i + step * bits.words];
    }
    for (int y = 0; y < side; y++)
        for (int x = 0; x < side; x++) to[size_t(y) * side + x] = bits.row(size_t(y))[before + size_t(x) / 64] >> x % 64 & 1;
}

static u64 area(const u8 *pixels, u8 colour) {
    u64 sum = 0;
    for (int y = 0; y < side; y++) {
        u32 in_row = 0;
        for (int x = 0; x < side; x++) in_row += pixels[size_t(y) * side + x] == colour;
        sum += in_row;
    }
    return sum;
}

static u64 perimeter(const u8 *pixels, u8 colour) {
    u64 sum = 0;
    for (int y = 0; y <= side; y++) {
        const u8 *row = pixels + size_t(y) * side, *above = row - side;
        u32 edges = 0;
        if (y == 0 || y == side)
            for (int x = 0; x < side; x++) edges += (y == 0 ? row : above)[x] == colour;
        else
            for (int x = 0; x < side; x++) edges += (row[x] == colour) != (above[x] == colour);
        if (y < side) {
            edges += (row[0] == colour) + (row[side - 1] == colour);
            for (int x = 1; x < side; x++) edges += (row[x] == colour) != (row[x - 1] == colour);
        }
        sum += edges;
    }
    return sum;
}

// The squared distance of a pixel from a segment.
static Fraction distance(const Segment &s, i64 x, i64 y) {
    i64 dx = s.x2 - s.x1, dy = s.y2 - s.y1, along = (x - s.x1) * dx + (y - s.y1) * dy, length = dx * dx + dy * dy;
    if (along <= 0) return {(x - s.x1) * (x - s.x1) + (y - s.y1) * (y - s.y1), 1};
    if (along >= length) return {(x - s.x2) * (x - s.x2) + (y - s.y2) * (y - s.y2), 1};
    i64 across = dx * (y - s.y1) - dy * (x - s.x1);
    return {across * across, length};
}

static void say_nearest(Lines &lines, int x, int y) {
    lines.list_squares();
    lines.round++;
    const Segment *best = nullptr;
    Fraction least = {0, 1};
    auto look = [&](const Segment &s) {
        Fraction d = distance(s, x, y);
        if (best && !is_less(d, least) && (is_less(least, d) || s.id > best->id)) return;
        best = &s;
        least = d;
    };
    int middle_x = x / 32, middle_y = y / 32;
    for (int ring = 0; ring < lines.across; ring++) {
        // Segments that were not seen yet lie outside of the square of the rings before.
        i64 reach = std::min({x - 32 * (middle_x - ring + 1), 32 * (middle_x + ring) - x, y - 32 * (middle_y - ring + 1), 32 * (middle_y + ring) - y});
        if (best && ring && reach > 0 && is_less(least, {reach * reach, 1})) break;
        for (int row = std::max(middle_y - ring, 0); row <= std::min(middle_y + ring, lines.across - 1); row++) {
            bool is_end = row == middle_y - ring || row == middle_y + ring;
            for (int column = middle_x - ring; column <= middle_x + ring; column += is_end || !ring ? 1 : 2 * ring)
                if (column >= 0 && column < lines.across) lines.each_new(size_t(row) * lines.across + column, look);
        }
    }
    say(best->id);
    replies += ' ';
    say_fraction(least);
    replies += '\n';
}

struct Hit {
    const Segment *segment;
    Fraction first, last;
};

// Cuts the part of the segment in a closed range of one coordinate; false where nothing is left.
static bool cut(i64 from, i64 to, i64 low, i64 high, Fraction &first, Fraction &last) {
    i64 way = to - from;
    if (way == 0) return low <= from && from <= high;
    Fraction in = way > 0 ? Fraction{low - from, way} : Fraction{from - high, -way};
    Fraction out = way > 0 ? Fraction{high - from, way} : Fraction{from - low, -way};
    if (is_less(first, in)) first = in;
    if (is_less(out, last)) last = out;
    return !is_less(last, first);
}

static void say_window(Lines &lines, int x, int y, int w, int h, bool is_clip) {
    vector<Hit> hits;
    lines.each_near(x, y, x + w, y + h, [&](const Segment &s) {
        Hit hit = {&s, {0, 1}, {1, 1}};
        if (cut(s.x1, s.x2, x, x + w, hit.first, hit.last) && cut(s.y1, s.y2, y, y + h, hit.first, hit.last)) hits.push_back(hit);
    });
    std::sort(hits.begin(), hits.end(), [](const Hit &a, const Hit &b) { return a.segment->id < b.segment->id; });
    for (const Hit &hit : hits) {
        const Segment &s = *hit.segment;
        if (!is_clip) {
            say_row(s.id, s.x1, s.y1, s.x2, s.y2);
            continue;
        }
        say(s.id);
        replies += ' ';
        say_fraction(hit.first);
        replies += ' ';
        say_fraction(hit.last);
        replies += '\n';
    }
}

static int turn(const Segment &s, int x, int y) {
    i64 z = i64(s.x2 - s.x1) * (y - s.y1) - i64(s.y2 - s.y1) * (x - s.x1);
    return (z > 0) - (z < 0);
}

static bool share(const Segment &s, const Segment &t) {
    return std::max(s.x1, s.x2) >= std::min(t.x1, t.x2) && std::max(t.x1, t.x2) >= std::min(s.x1, s.x2) &&
           std::max(s.y1, s.y2) >= std::min(t.y1, t.y2) && std::max(t.y1, t.y2) >= std::min(s.y1, s.y2) &&
           turn(s, t.x1, t.y1) * turn(s, t.x2, t.y2) <= 0 && turn(t, s.x1, s.y1) * turn(t, s.x2, s.y2) <= 0;
}

static void say_crossings(Lines &first, Lines &second) {
    vector<std::pair<u32, u32>> pairs;
    for (const Segment &s : first.all)
        second.each_near(std::min(s.x1, s.x2), std::min(s.y1, s.y2), std::max(s.x1, s.x2), std::max(s.y1, s.y2), [&](const Segment &t) {
            if (share(s, t)) pairs.emplace_back(s.id, t.id);
        });
    std::sort(pairs.begin(), pairs.end());
    for (auto [s, t] : pairs) say_row(s, t);
}

// Lines of the input.
static vector<char> input(1 << 17);
static size_t input_begin, input_end;

static bool next_line(string_view &line) {
    for (;;) {
        char *first = input.data() + input_begin;
        if (void *end = memchr(first, '\n', input_end - input_begin)) {
            line = string_view(first, size_t(static_cast<char *>(end) - first));
            input_begin += line.size() + 1;
            return true;
        }
        memmove(input.data(), first, input_end - input_begin);
        input_end -= std::exchange(input_begin, 0);
        put_replies();
        ssize_t n = read(0, input.data() + input_end, input.size() - input_end);
        if (n <= 0) return false;
        input_end += size_t(n);
    }
}

static u32 number_of(string_view digits) {
    u32 n = 0;
    for (char c : digits) n = n * 10 + u32(c - '0');
    return n;
}

static size_t cut_words(string_view line, string_view *words, size_t most) {
    size_t count = 0;
    for (size_t i = 0; i < line.size();) {
        size_t end = std::min(line.find(' ', i), line.size());
        if (end > i && count < most) words[count++] = line.substr(i, end - i);
        i = end + 1;
    }
    return count;
}

static u8 digit_of(char c) { return u8(c <= '9' ? c - '0' : (c | 32) - 'a' + 10); }

static void read_raster(Layer &l) {
    u8 digits[256];
    for (int i = 0; i < 256; i++) digits[i] = digit_of(char(i));
    l.is_whole = true;
    for (int y = 0; y < side; y++) {
        string_view line;
        if (!next_line(line) || line.size() != 2 * size_t(side)) exit(64);
        u8 *row = l.pixels + size_t(y) * side;
        for (int x = 0; x < side; x++) row[x] = u8(digits[u8(line[2 * size_t(x)])] << 4 | digits[u8(line[2 * size_t(x) + 1])]);
    }
}

static bool put_point(Layer &l, Point p) {
    if (!l.points->put(p)) return false;
    l.points->fresh.push_back(p);
    return true;
}

static bool scatter(Layer &l, u32 count) {
    for (u32 i = 0; i < count; i++) {
        string_view line, words[3];
        if (!next_line(line) || cut_words(line, words, 3) != 3) exit(64);
        if (!put_point(l, {u16(number_of(words[0])), u16(number_of(words[1])), number_of(words[2])})) return false;
    }
    return true;
}

static void say_within(const Points &points, int x, int y, int w, int h) {
    vector<Point> found;
    for (int row = y / 64; row <= (y + h - 1) / 64; row++)
        for (int column = x / 64; column <= (x + w - 1) / 64; column++)
            for (Point p : points.squares[size_t(row) * points.across + column])
                if (p.x >= x && p.x < x + w && p.y >= y && p.y < y + h) found.push_back(p);
    std::sort(found.begin(), found.end(), [](Point a, Point b) { return a.y != b.y ? a.y < b.y : a.x < b.x; });
    for (Point p : found) say_row(p.x, p.y, p.label);
}

static void set_pixel(Layer &l, u32 place, u8 colour) {
    if (l.pixels[place] == colour) return;
    l.pixels[place] = colour;
    if (!l.is_whole) l.changed.insert(l.changed.end(), {place, colour});
}

template <class F>
static void overlay(string_view first, string_view second, string_view made, F f) {
    const u8 *a = layer(first).pixels, *b = layer(second).pixels;
    u8 *c = new_region(made);
    for (size_t i = 0; i < size_t(side) * side; i++) c[i] = f(a[i], b[i]);
}

// Answers one command; false where it is refused.
static bool answer(const string_view *w, size_t count) {
    u32 n[8] = {};
    for (size_t i = 2; i < std::min<size_t>(count, 8); i++) n[i] = number_of(w[i]);
    string_view word = w[0];
    if (word == "at") say_row(layer(w[1]).pixels[n[3] * u32(side) + n[2]]);
    else if (word == "set") set_pixel(layer(w[1]), n[3] * u32(side) + n[2], u8(n[4]));
    else if (word == "put") return put_point(layer(w[1]), {u16(n[2]), u16(n[3]), n[4]});
    else if (word == "find") {
        const Points &points = *layer(w[1]).points;
        size_t i = points.slot_of(int(n[2]), int(n[3]));
        if (!points.is_taken[i]) return false;
        say_row(points.slots[i].label);
    } else if (word == "within") say_within(*layer(w[1]).points, int(n[2]), int(n[3]), int(n[4]), int(n[5]));
    else if (word == "line") return layer(w[1]).lines->put({n[2], int(n[3]), int(n[4]), int(n[5]), int(n[6])});
    else if (word == "nearest") say_nearest(*layer(w[1]).lines, int(n[2]), int(n[3]));
    else if (word == "cross" || word == "clip") say_window(*layer(w[1]).lines, int(n[2]), int(n[3]), int(n[4]), int(n[5]), word == "clip");
    else if (word == "crossings") say_crossings(*layer(w[1]).lines, *layer(w[2]).lines);
    else if (word == "scatter") return scatter(layer(w[1]), n[2]);
    else if (word == "raster") read_raster(layer(w[1]));
    else if (word == "union") overlay(w[1], w[2], w[3], [](u8 a, u8 b) { return a ? a : b; });
    else if (word == "inter") overlay(w[1], w[2], w[3], [](u8 a, u8 b) { return b ? a : u8(0); });
    else if (word == "diff") overlay(w[1], w[2], w[3], [](u8 a, u8 b) { return b ? u8(0) : a; });
    else if (word == "buffer") buffer(layer(w[1]).pixels, int(n[2]), new_region(w[3]));
    else if (word == "area") say_row(area(layer(w[1]).pixels, u8(n[2])));
    else if (word == "perimeter") say_row(perimeter(layer(w[1]).pixels, u8(n[2])));
    else if (word == "region") memset(new_region(w[1]), int(n[2]), size_t(side) * side);
    else if (word == "points") layers[string(w[1])].points = std::make_unique<Points>();
    else if (word == "lines") layers[string(w[1])].lines = std::make_unique<Lines>();
    else if (word == "publish") {
        publish();
        replies += "edition ";
        say_row(edition);
    } else exit(64);
    return true;
}

int main(int count, char **words) {
    if (count == 5 && string_view(words[1]) == "new") return make_file(words[2], atoi(words[4]));
    if (count != 3 || string_view(words[1]) != "run") return 2;
    open_file(words[2]);
    string_view line, parts[8];
    bool is_refused = false;
    while (next_line(line)) {
        size_t number = cut_words(line, parts, 8);
        if (number == 0 || parts[0].front() == '#') continue;
        bool is_well = answer(parts, number);
        replies += is_well ? "ok\n" : parts[0] == "find" ? "no 9 absent\n" : "no 10 present\n";
        is_refused |= !is_well;
        if (parts[0] == "publish") put_replies();
    }
    put_replies();
    return is_refused;
}
