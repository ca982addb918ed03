/* The check of a volume as it might be written in C by someone who proves nothing: the limit for the time of the proved check.
   It decides W1 to W5 of docs/RULES.md for version 2 and blocks of 512 bytes, with the same buffers: a lent one that has a bit
   for each data block, and 16 KiB of stack for the filter of names. A directory's blocks are passed once, and once more where it
   has directories in it. bench/twin/run builds it and runs it. */
#include <stdbool.h>
#include <stdint.h>
#include <stdio.h>
#include <stdlib.h>
#include <string.h>
#include <time.h>

enum { BLOCK = 512, CAPACITY = 508, HEADER = 18, LAST_END = 507, LAST_START = 490, DEPTH = 16, FILTER_WORDS = 4096 };
enum { DIRECTORY = 0, FILE_ENTRY = 1, DEVICE = 2 };

typedef struct {
    const uint8_t *image;
    uint8_t *marks;
    uint32_t *filter;
    uint32_t first, end; /* the data area */
    uint32_t claimed;
} Walk;

/* An entry where it stands; `name` is null where a block has no more of them. */
typedef struct {
    uint32_t kind, addr, size, len;
    const uint8_t *name;
} Entry;

static uint32_t big_endian(const uint8_t *p) {
    uint32_t v;
    memcpy(&v, p, 4);
    return __builtin_bswap32(v);
}

static const uint8_t *block_at(const Walk *w, uint32_t addr) { return w->image + (size_t)addr * BLOCK; }

/* Marks a block; not one outside the data area, and not one that is marked already. */
static inline bool claim(Walk *w, uint32_t addr) {
    if (addr < w->first || addr >= w->end) return false;
    uint32_t x = addr - w->first;
    uint8_t bit = (uint8_t)(1u << (x % 8));
    if (w->marks[x / 8] & bit) return false;
    w->marks[x / 8] |= bit;
    w->claimed++;
    return true;
}

static inline Entry entry_at(const uint8_t *data, uint32_t at) {
    Entry e = {0};
    if (at >= LAST_START) return e;
    const uint8_t *p = data + at;
    if (p[0] > DEVICE || p[17] == 0 || at + HEADER + p[17] > LAST_END) return e;
    return (Entry){p[0], big_endian(p + 1), big_endian(p + 5), p[17], p + HEADER};
}

/* Well-formed UTF-8 without control bytes and '/', a character at a time: for names that are not plain ASCII. */
static bool is_text(const uint8_t *p, uint32_t len) {
    for (uint32_t i = 0; i < len;) {
        uint8_t b = p[i];
        uint32_t more = b < 0x80 ? 0 : b >= 0xc2 && b < 0xe0 ? 1 : b >= 0xe0 && b < 0xf0 ? 2 : b >= 0xf0 && b < 0xf5 ? 3 : 4;
        if (more == 4 || i + more >= len) return false;
        if (more == 0 && (b < 0x20 || b == 0x7f || b == '/')) return false;
        for (uint32_t k = 1; k <= more; k++)
            if ((p[i + k] & 0xc0) != 0x80) return false;
        uint8_t second = more ? p[i + 1] : 0;
        if ((b == 0xe0 && second < 0xa0) || (b == 0xed && second > 0x9f)) return false;
        if ((b == 0xf0 && second < 0x90) || (b == 0xf4 && second > 0x8f)) return false;
        i += more + 1;
    }
    return true;
}

#define EACH(b) (0x0101010101010101ull * (b))

/* Not 0 where a byte of v is no plain character of a name: the high bit of that byte is set, perhaps with those of later ones. */
static inline uint64_t odd_bytes(uint64_t v) {
    uint64_t slash = v ^ EACH('/');
    return (v | ((v - EACH(0x20)) & ~v) | (v + EACH(1)) | ((slash - EACH(1)) & ~slash)) & EACH(0x80);
}

static inline uint64_t mix(uint64_t h, uint64_t v) {
    h = (h ^ v) * 0x9ddfea08eb382d69ull;
    return h ^ (h >> 31);
}

/* Whether a name may stand there, eight bytes at a time, and its hash. The last few bytes are read together with what precedes
   them: an entry's header is longer than seven bytes. */
static inline bool good_name(const uint8_t *name, uint32_t len, uint64_t *hash) {
    uint64_t h = EACH(1) * len, odd = 0, v;
    uint32_t at = 0;
    for (; at + 8 <= len; at += 8) {
        memcpy(&v, name + at, 8);
        odd |= odd_bytes(v);
        h = mix(h, v);
    }
    uint32_t left = len - at;
    if (left) {
        memcpy(&v, name + len - 8, 8);
        v >>= 8 * (8 - left);
        odd |= odd_bytes(v | EACH('a') << 8 * left);
        h = mix(h, v);
    }
    *hash = mix(h, len);
    return odd == 0 || is_text(name, len);
}

/* Whether an entry before this one, which the walk has passed, has its name. */
static bool seen_before(const Walk *w, uint32_t dir, Entry e) {
    for (uint32_t addr = dir;; addr = big_endian(block_at(w, addr))) {
        const uint8_t *data = block_at(w, addr) + 4;
        uint32_t at = 0;
        for (Entry x = entry_at(data, at); x.name; at += HEADER + x.len, x = entry_at(data, at)) {
            if (x.name == e.name) return false;
            if (x.len == e.len && memcmp(x.name, e.name, e.len) == 0) return true;
        }
    }
}

/* Notes a name in the filter, three bits for each; where all three are set it is looked for among the earlier ones. */
static inline bool new_name(Walk *w, uint32_t dir, Entry e, uint64_t hash) {
    bool maybe = true;
    for (int i = 0; i < 3; i++, hash >>= 17) {
        uint32_t *word = &w->filter[hash / 32 % FILTER_WORDS], bit = 1u << hash % 32;
        maybe = maybe && (*word & bit);
        *word |= bit;
    }
    return !maybe || !seen_before(w, dir, e);
}

/* The walk is copied, since a store of a byte might change it for all that the compiler knows. */
static bool walk_file(Walk *w, Entry e) {
    if (e.size > 2147483647u) return false;
    Walk here = *w;
    uint32_t addr = e.addr;
    for (uint32_t left = e.size ? (e.size + CAPACITY - 1) / CAPACITY : 1; left; left--) {
        if (!claim(&here, addr)) return false;
        addr = big_endian(block_at(&here, addr));
    }
    w->claimed = here.claimed;
    return addr == 0;
}

static bool walk_device(Walk *w, uint32_t addr) {
    do {
        if (!claim(w, addr)) return false;
        addr = big_endian(block_at(w, addr));
    } while (addr);
    return true;
}

static inline bool all_zero(const uint8_t *p, size_t len) {
    uint8_t any = 0;
    for (size_t i = 0; i < len; i++) any |= p[i];
    return any == 0;
}

/* The entries of one block, with what they hold but for directories. `size` and `dirs` grow by what is there. */
static bool walk_block(Walk *w, uint32_t dir, uint32_t addr, uint32_t *size, uint32_t *dirs) {
    const uint8_t *data = block_at(w, addr) + 4;
    uint32_t at = 0;
    for (Entry e = entry_at(data, at); e.name; at += HEADER + e.len, e = entry_at(data, at)) {
        uint64_t hash;
        if (!good_name(e.name, e.len, &hash) || !new_name(w, dir, e, hash)) return false;
        if (e.kind == FILE_ENTRY && !walk_file(w, e)) return false;
        if (e.kind == DEVICE && !walk_device(w, e.addr)) return false;
        *dirs += e.kind == DIRECTORY;
    }
    *size += at;
    return (at > 0 || addr == dir) && all_zero(data + at, CAPACITY - at);
}

static bool walk_dir(Walk *w, uint32_t dir, int depth, uint32_t *size);

static bool walk_dirs_in(Walk *w, uint32_t dir, int depth) {
    if (depth == 0) return false;
    for (uint32_t addr = dir; addr; addr = big_endian(block_at(w, addr))) {
        const uint8_t *data = block_at(w, addr) + 4;
        uint32_t at = 0;
        for (Entry e = entry_at(data, at); e.name; at += HEADER + e.len, e = entry_at(data, at)) {
            uint32_t size;
            if (e.kind == DIRECTORY && (!walk_dir(w, e.addr, depth - 1, &size) || size != e.size)) return false;
        }
    }
    return true;
}

static bool walk_dir(Walk *w, uint32_t dir, int depth, uint32_t *size) {
    uint32_t dirs = 0, addr = dir;
    memset(w->filter, 0, 4 * FILTER_WORDS);
    *size = 0;
    do {
        if (!claim(w, addr) || !walk_block(w, dir, addr, size, &dirs)) return false;
        addr = big_endian(block_at(w, addr));
    } while (addr);
    return dirs == 0 || walk_dirs_in(w, dir, depth);
}

/* Whether the volume at block k is well formed. It is not inlined, so that its instructions can be counted by its name. */
__attribute__((noinline)) bool twin_check(const uint8_t *image, size_t len, uint32_t k, uint8_t *marks, uint32_t *used) {
    uint64_t blocks = len / BLOCK;
    if (len == 0 || len % BLOCK || blocks > 8388608 || blocks <= (uint64_t)k + 2) return false;
    const uint8_t *top = image + (size_t)k * BLOCK;
    uint32_t n = big_endian(top + 10), map = k + 2;
    if (memcmp(top, "MOROS FS\2\0", 10) || !all_zero(top + HEADER, BLOCK - HEADER)) return false;
    if (n > blocks || n < map + 2 || (n - map) % 4097 == 1) return false;
    uint32_t filter[FILTER_WORDS], first = map + (n - map + 4096) / 4097, size;
    size_t bytes = (n - first + 7) / 8;
    const uint8_t *bits = image + (size_t)map * BLOCK;
    memset(marks, 0, bytes);
    Walk w = {image, marks, filter, first, n, 0};
    bool good = walk_dir(&w, first, DEPTH, &size) && memcmp(marks, bits, bytes) == 0;
    good = good && all_zero(bits + bytes, (size_t)(first - map) * BLOCK - bytes) && big_endian(top + 14) == first + w.claimed;
    memset(marks, 0, bytes);
    *used = w.claimed + first - map;
    return good;
}

static double now(void) {
    struct timespec t;
    clock_gettime(CLOCK_THREAD_CPUTIME_ID, &t);
    return (double)t.tv_sec * 1e9 + (double)t.tv_nsec;
}

static int order(const void *a, const void *b) {
    double x = *(const double *)a, y = *(const double *)b;
    return (x > y) - (x < y);
}

/* twin FILE K RUNS: the blocks of bitmap and chains, and the median of the times in nanoseconds. A volume with a bit more in its
   bitmap must not pass, or the program says so. */
int main(int argc, char **argv) {
    if (argc != 4) return fprintf(stderr, "usage: twin FILE K RUNS\n"), 2;
    FILE *in = fopen(argv[1], "rb");
    if (!in || fseek(in, 0, SEEK_END)) return perror(argv[1]), 1;
    size_t len = (size_t)ftell(in);
    uint32_t k = (uint32_t)atoi(argv[2]), used = 0;
    int runs = atoi(argv[3]);
    uint8_t *image = malloc(len), *marks = calloc(1, len / BLOCK / 8 + 1);
    double *times = calloc((size_t)runs + 1, sizeof *times);
    rewind(in);
    if (!image || !marks || !times || runs < 1 || fread(image, 1, len, in) != len) return fprintf(stderr, "no image\n"), 1;
    bool good = true;
    for (int i = 0; i < runs; i++) {
        double start = now();
        good = twin_check(image, len, k, marks, &used) && good;
        times[i] = now() - start;
    }
    qsort(times, (size_t)runs, sizeof *times, order);
    printf("%u %.0f\n", used, times[runs / 2]);
    if (!good) return fprintf(stderr, "a volume that should pass does not\n"), 1;
    if (getenv("TWIN_ONCE")) return 0;
    image[(size_t)(k + 2) * BLOCK] ^= 1;
    if (twin_check(image, len, k, marks, &used)) return fprintf(stderr, "a damaged volume passes\n"), 1;
    return 0;
}
