// A sender in plain C, to measure the proved one against: plain REPEATS < stack
//
// Reads a well formed stack, makes both grounds of it and sends each into a slot of 86,101 bits.
// Standard output: the number of bits and the FNV-1a hash of their bytes. Standard error: for each phase the
// nanoseconds of the fastest of REPEATS runs.

#define _POSIX_C_SOURCE 199309L  // clock_gettime

#include <stdbool.h>
#include <stdint.h>
#include <stdio.h>
#include <stdlib.h>
#include <string.h>
#include <time.h>

enum {
    LEVELS = 6,          // the largest side exponent
    SIDE = 1 << LEVELS,  // entries of a row of any grid, used or not
    CELLS = SIDE * SIDE,
    UNTOLD = -8192,      // the height of a cell without an echo
    SLOT = 86101,        // bits; no survey has more
    BYTES = (SLOT + 7) / 8
};

// A block of side 2^s is known by s and its place row * SIDE + column, both counted in blocks of that side.
// So its quarters have the places 2 p, 2 p + 1, 2 p + SIDE and 2 p + SIDE + 1, and its top left cell has p << s.
typedef uint16_t place;

static int m, k;  // side exponent and transform levels of the stack
static int32_t heights[CELLS];
static int32_t coefficients[CELLS];

// ---- Transform

static void transform(void) {
    static int32_t half[CELLS];  // a level's rows are done from the coefficients to here, its columns back
    memcpy(coefficients, heights, sizeof coefficients);
    for (int w = 1 << m, levels = k; levels > 0; levels--, w /= 2) {
        for (int row = 0; row < w; row++) {
            const int32_t *from = coefficients + row * SIDE;
            int32_t *low = half + row * SIDE, *difference = low + w / 2;
            for (int i = 0; i < w / 2; i++) {
                low[i] = (from[2 * i] + from[2 * i + 1]) >> 1;
                difference[i] = from[2 * i] - from[2 * i + 1];
            }
        }
        for (int i = 0; i < w / 2; i++) {
            const int32_t *a = half + 2 * i * SIDE, *b = a + SIDE;
            int32_t *low = coefficients + i * SIDE, *difference = low + w / 2 * SIDE;
            for (int column = 0; column < w; column++) {
                low[column] = (a[column] + b[column]) >> 1;
                difference[column] = a[column] - b[column];
            }
        }
    }
}

// ---- Grounds

static struct {
    int planes;
} bare;

static struct {
    int planes;
    int16_t block[LEVELS + 1][CELLS];  // the largest magnitude in a block of side 2^s
    int16_t rest[LEVELS + 1];          // and outside the top left square of side 2^s
} peaks;

// From the largest magnitude, or from all of them joined by or.
static int plane_count(uint32_t magnitudes) {
    return magnitudes == 0 ? 0 : 32 - __builtin_clz(magnitudes);
}

static void make_bare(void) {
    uint32_t all = 0;
    for (int row = 0; row < 1 << m; row++)
        for (int column = 0; column < 1 << m; column++)
            all |= (uint32_t)abs(coefficients[row * SIDE + column]);
    bare.planes = plane_count(all);
}

static inline int16_t larger(int16_t a, int16_t b) { return a > b ? a : b; }

static void make_peaks(void) {
    for (int row = 0; row < 1 << m; row++)
        for (int column = 0; column < 1 << m; column++)
            peaks.block[0][row * SIDE + column] = (int16_t)abs(coefficients[row * SIDE + column]);
    for (int s = 1; s <= m; s++)
        for (int row = 0; row < 1 << (m - s); row++) {
            const int16_t *upper = peaks.block[s - 1] + 2 * row * SIDE, *lower = upper + SIDE;
            int16_t *to = peaks.block[s] + row * SIDE;
            for (int i = 0; i < 1 << (m - s); i++)
                to[i] = larger(larger(upper[2 * i], upper[2 * i + 1]), larger(lower[2 * i], lower[2 * i + 1]));
        }
    peaks.rest[m] = 0;
    for (int s = m; s-- > 0;) {
        const int16_t *block = peaks.block[s];
        peaks.rest[s] = larger(larger(block[1], block[SIDE]), larger(block[SIDE + 1], peaks.rest[s + 1]));
    }
    peaks.planes = plane_count((uint32_t)peaks.block[m][0]);
}

// ---- Bits, the first one highest

static struct {
    uint8_t bytes[BYTES + 8];
    uint8_t *next;
    uint64_t word;  // its lowest bits are not stored yet,
    int held;       // this many of them, fewer than 32
} writer;

static inline int written(void) { return (int)(writer.next - writer.bytes) * 8 + writer.held; }

// At most 32 bits, with zeros above them.
static inline void put(uint32_t bits, int count) {
    writer.word = writer.word << count | bits;
    writer.held += count;
    if (writer.held >= 32) {
        writer.held -= 32;
        const uint32_t full = __builtin_bswap32((uint32_t)(writer.word >> writer.held));
        memcpy(writer.next, &full, sizeof full);
        writer.next += sizeof full;
    }
}

// ---- The survey

static enum { BARE, PEAKS } ground;
static int limit;                         // 2^n in plane n
static place waiting[LEVELS + 1][CELLS];  // the waiting blocks of each side, in the order of joining
static int waiting_count[LEVELS + 1];
static int16_t found[CELLS];              // the magnitudes of the found cells, in the order of finding
static int found_count;

// Whether a cell of this rectangle has a magnitude of at least the limit.
static bool search(const int32_t *corner, int rows, int columns) {
    for (int row = 0; row < rows; row++, corner += SIDE)
        for (int column = 0; column < columns; column++)
            if (abs(corner[column]) >= limit)
                return true;
    return false;
}

static inline bool ask_block(int s, place p) {
    if (ground == PEAKS)
        return peaks.block[s][p] >= limit;
    return search(coefficients + (p << s), 1 << s, 1 << s);
}

static inline bool ask_rest(int s) {
    if (ground == PEAKS)
        return peaks.rest[s] >= limit;
    const int x = 1 << s, side = 1 << m;
    return search(coefficients + x, x, side - x) || search(coefficients + x * SIDE, side - x, side);
}

// Ask a cell, and on a yes its sign. Nobody can foresee the answer, so there is no branch on it.
static inline void visit_cell(place p) {
    const int magnitude = abs(coefficients[p]);
    const int negative = coefficients[p] < 0, yes = magnitude >= limit;
    put((uint32_t)(-yes & (2 | negative)), 1 + yes);
    waiting[0][waiting_count[0]] = p;
    waiting_count[0] += !yes;
    found[found_count] = (int16_t)magnitude;
    found_count += yes;
}

// Ask a block, and on a yes its quarters; with a no it joins the waiting ones.
static void visit(int s, place p) {
    if (s == 0) {
        visit_cell(p);
    } else if (!ask_block(s, p)) {
        put(0, 1);
        waiting[s][waiting_count[s]++] = p;
    } else {
        put(1, 1);
        visit(s - 1, 2 * p);
        visit(s - 1, 2 * p + 1);
        visit(s - 1, 2 * p + SIDE);
        visit(s - 1, 2 * p + SIDE + 1);
    }
}

// Write the survey's first bits, as many as the slot has, and say how many. When the slot is full, what was begun
// is finished and cut off.
static int send(int planes, int slot, uint8_t *bytes) {
    writer.next = writer.bytes;
    writer.held = 0;
    memset(waiting_count, 0, sizeof waiting_count);
    found_count = 0;
    int x = m - k;  // the rest is what lies outside the top left square of side 2^x
    waiting[x][waiting_count[x]++] = 0;
    for (int n = planes - 1; n >= 0 && written() < slot; n--) {
        limit = 1 << n;
        const int found_before = found_count;
        // A visit puts a block with a no back into its list, at its old place or in front of it.
        const int cells = waiting_count[0];
        waiting_count[0] = 0;
        for (int i = 0; i < cells; i++)
            visit_cell(waiting[0][i]);
        for (int s = 1; s <= m; s++) {
            const int blocks = waiting_count[s];
            waiting_count[s] = 0;
            for (int i = 0; i < blocks && written() < slot; i++)
                visit(s, waiting[s][i]);
        }
        while (x < m && written() < slot) {
            const bool yes = ask_rest(x);
            put(yes, 1);
            if (!yes)
                break;
            visit(x, 1);
            visit(x, SIDE);
            visit(x, SIDE + 1);
            x++;
        }
        for (int i = 0; i < found_before; i++)
            put(found[i] >> n & 1, 1);
    }
    const int bits = written() < slot ? written() : slot;
    put(0, 31);
    memcpy(bytes, writer.bytes, (size_t)(bits + 7) / 8);
    if (bits % 8 != 0)
        bytes[bits / 8] &= 0xff00 >> bits % 8;
    return bits;
}

static uint8_t bare_bytes[BYTES], peak_bytes[BYTES];
static int bare_bits, peak_bits;

static void send_bare(void) {
    ground = BARE;
    bare_bits = send(bare.planes, SLOT, bare_bytes);
}

static void send_peak(void) {
    ground = PEAKS;
    peak_bits = send(peaks.planes, SLOT, peak_bytes);
}

// ---- The command

static int64_t now(void) {
    struct timespec t;
    clock_gettime(CLOCK_MONOTONIC, &t);
    return (int64_t)t.tv_sec * 1000000000 + t.tv_nsec;
}

static void measure(const char *name, void (*phase)(void), long repeats) {
    int64_t fastest = INT64_MAX;
    while (repeats-- > 0) {
        const int64_t start = now();
        phase();
        __asm__ volatile("" ::: "memory");  // all that was computed counts as read
        const int64_t taken = now() - start;
        if (taken < fastest)
            fastest = taken;
    }
    fprintf(stderr, "%s %lld\n", name, (long long)fastest);
}

static void read_stack(void) {
    if (scanf("%d %d", &m, &k) != 2)
        exit(1);
    for (int row = 0; row < 1 << m; row++)
        for (int column = 0; column < 1 << m; column++) {
            char first;
            int height = UNTOLD;
            if (scanf(" %c", &first) != 1)
                exit(1);
            if (first != '.') {
                ungetc(first, stdin);
                if (scanf("%d", &height) != 1)
                    exit(1);
            }
            heights[row * SIDE + column] = height;
        }
}

int main(int count, char **words) {
    const long repeats = count == 2 ? strtol(words[1], NULL, 10) : 0;
    if (repeats < 1) {
        fputs("usage: plain REPEATS < stack\n", stderr);
        return 2;
    }
    read_stack();
    measure("transform", transform, repeats);
    measure("bare", make_bare, repeats);
    measure("peak", make_peaks, repeats);
    measure("send_bare", send_bare, repeats);
    measure("send_peak", send_peak, repeats);
    const size_t used = (size_t)(peak_bits + 7) / 8;
    if (bare_bits != peak_bits || memcmp(bare_bytes, peak_bytes, used) != 0) {
        fputs("the two grounds were sent differently\n", stderr);
        return 1;
    }
    uint32_t sum = 2166136261;
    for (size_t i = 0; i < used; i++)
        sum = (sum ^ peak_bytes[i]) * 16777619;
    printf("bits %d\nsum %u\n", peak_bits, (unsigned)sum);
    return 0;
}
