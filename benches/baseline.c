// The work of crates/kernel_bench in C, on the same words: gcc -O3 -march=native, by scripts/bench, time_open, time_get and time_wide.
//
// The packed product has the loop structure of the published implementation of SimplePIR: three digits of
// ten bits in a word, eight rows at once, each digit masked out. That of one row at once stands beside it.
// The published product of two matrices is the plain triple loop; the blocked one beside it, which adds four
// rows of the right matrix at once for 128 of them at a time, is much quicker, and is the one to compare with.
//
// A line has the name of the work, the time of its quickest turn, the bytes read and the products added in
// a second, and a sum of the words that were made, parted by tabs. With the argument `plain` the plain triple loop is
// timed, too. With `rate` each packed product alone is made 200 times one after another, as a server makes them for queries
// in one stream, and its line has the mean. With `wide ROWS COLS` the packed products are made of a matrix of so many digits of nine bits, as
// queries of a wide store are answered.

#include <stdint.h>
#include <stdio.h>
#include <stdlib.h>
#include <string.h>
#include <time.h>

typedef uint32_t word;

enum { TURNS = 9, IN_A_ROW = 200, DIGIT = 1023, BLOCK = 128 };

// Nothing is compiled for these very sizes: no function is inlined, nor copied for arguments that are known.
#define KERNEL __attribute__((noipa)) static

typedef struct {
    size_t rows, cols, width, secret;
} sizes;

static double now(void)
{
    struct timespec t;
    clock_gettime(CLOCK_MONOTONIC, &t);
    return t.tv_sec * 1e9 + t.tv_nsec;
}

static word *zeros(size_t count)
{
    // The same allocator as the program's: large arrays begin 16 bytes past a page.
    word *words = malloc(count * sizeof(word));
    if (!words) {
        fprintf(stderr, "out of memory\n");
        exit(1);
    }
    memset(words, 0, count * sizeof(word));
    return words;
}

// Words of a linear congruential generator, the same as the program's.
static word *filled(size_t count, word seed, word mask)
{
    word *words = zeros(count);
    word state = seed;
    for (size_t i = 0; i < count; i++) {
        state = state * 1664525u + 1013904223u;
        words[i] = (state ^ (state >> 13)) & mask;
    }
    return words;
}

static word digit_at(const word *digits, size_t cols, size_t row, size_t j)
{
    return j < cols ? digits[row * cols + j] : 0;
}

static word *packed_of(const word *digits, sizes n)
{
    word *words = zeros(n.rows * n.width);
    for (size_t r = 0; r < n.rows; r++)
        for (size_t t = 0; t < n.width; t++)
            words[r * n.width + t] = digit_at(digits, n.cols, r, 3 * t) | digit_at(digits, n.cols, r, 3 * t + 1) << 10
                                     | digit_at(digits, n.cols, r, 3 * t + 2) << 20;
    return words;
}

KERNEL word read_all(const word *x, size_t count)
{
    word all = 0;
    for (size_t i = 0; i < count; i++)
        all ^= x[i];
    return all;
}

KERNEL word dot(const word *x, const word *y, size_t count)
{
    word sum = 0;
    for (size_t i = 0; i < count; i++)
        sum += x[i] * y[i];
    return sum;
}

KERNEL void flat(const word *a, size_t rows, size_t cols, const word *x, word *out)
{
    for (size_t i = 0; i < rows; i++) {
        word sum = 0;
        for (size_t j = 0; j < cols; j++)
            sum += a[i * cols + j] * x[j];
        out[i] = sum;
    }
}

// A row is `width` words, and x has three times as many.
KERNEL void packed_one(const word *a, size_t rows, size_t width, const word *x, word *out)
{
    for (size_t i = 0; i < rows; i++) {
        word sum = 0;
        for (size_t j = 0; j < width; j++) {
            word w = a[i * width + j];
            sum += (w & DIGIT) * x[3 * j] + ((w >> 10) & DIGIT) * x[3 * j + 1] + ((w >> 20) & DIGIT) * x[3 * j + 2];
        }
        out[i] = sum;
    }
}

KERNEL void packed_eight(const word *a, size_t rows, size_t width, const word *x, word *out)
{
    for (size_t i = 0; i + 8 <= rows; i += 8) {
        word sums[8] = {0};
        const word *eight = a + i * width;
        for (size_t j = 0; j < width; j++) {
            word x0 = x[3 * j], x1 = x[3 * j + 1], x2 = x[3 * j + 2];
            for (int r = 0; r < 8; r++) {
                word w = eight[r * width + j];
                sums[r] += (w & DIGIT) * x0 + ((w >> 10) & DIGIT) * x1 + ((w >> 20) & DIGIT) * x2;
            }
        }
        for (int r = 0; r < 8; r++)
            out[i + r] = sums[r];
    }
}

KERNEL void scaled(const word *a, size_t rows, size_t cols, word k, word *restrict out)
{
    for (size_t i = 0; i < rows; i++)
        for (size_t j = 0; j < cols; j++)
            out[j] += k * a[i * cols + j];
}

KERNEL void split(const word *a, size_t rows, size_t cols, word *restrict out)
{
    for (size_t r = 0; r < rows * 4; r++)
        for (size_t j = 0; j < cols; j++)
            out[r * cols + j] = (a[r / 4 * cols + j] >> (10 * (r % 4))) & DIGIT;
}

KERNEL void product(const word *a, const word *b, size_t rows, size_t inner, size_t cols, word *restrict out)
{
    memset(out, 0, sizeof(word) * rows * cols);
    for (size_t i = 0; i < rows; i++)
        for (size_t k = 0; k < inner; k++)
            for (size_t j = 0; j < cols; j++)
                out[i * cols + j] += a[i * inner + k] * b[k * cols + j];
}

KERNEL void product_blocked(const word *a, const word *b, size_t rows, size_t inner, size_t cols, word *restrict out)
{
    memset(out, 0, sizeof(word) * rows * cols);
    for (size_t start = 0; start < inner; start += BLOCK)
        for (size_t i = 0; i < rows; i++)
            for (size_t k = start; k < start + BLOCK; k += 4) {
                const word *f = a + i * inner + k, *p = b + k * cols;
                const word *q = p + cols, *r = q + cols, *s = r + cols;
                word *restrict o = out + i * cols;
                for (size_t j = 0; j < cols; j++)
                    o[j] += f[0] * p[j] + f[1] * q[j] + f[2] * r[j] + f[3] * s[j];
            }
}

static void say(const char *name, double words, double products, double nanos, const word *made, size_t count)
{
    word check = 0;
    for (size_t i = 0; i < count; i++)
        check = check * 31 + made[i];
    printf("%s\t%.3f ms\t%.2f GiB/s\t%.0f M products/s\tcheck %u\n", name, nanos / 1e6,
           words * sizeof(word) * 1e9 / (1 << 30) / nanos, products * 1e3 / nanos, check);
}

#define LEAST(turns, work)                                                                                           \
    ({                                                                                                               \
        double least = 1e18;                                                                                         \
        for (int turn = 0; turn < turns; turn++) {                                                                   \
            double start = now();                                                                                    \
            work;                                                                                                    \
            double took = now() - start;                                                                             \
            least = took < least ? took : least;                                                                     \
        }                                                                                                            \
        least;                                                                                                       \
    })

// Several vectors at once, for which a row is read once: x[v][u][j] is place 3 j + u of vector v.
#define PACKED_BY(NAME, ROWS, VECTORS)                                                                               \
    KERNEL void NAME(const word *a, size_t rows, size_t width, word *const (*x)[3], word *const *out)                \
    {                                                                                                                \
        for (size_t i = 0; i + ROWS <= rows; i += ROWS) {                                                            \
            word sums[VECTORS][ROWS] = {{0}};                                                                        \
            const word *some = a + i * width;                                                                        \
            for (size_t j = 0; j < width; j++)                                                                       \
                for (int r = 0; r < ROWS; r++) {                                                                     \
                    word w = some[r * width + j], d0 = w & DIGIT, d1 = (w >> 10) & DIGIT, d2 = (w >> 20) & DIGIT;    \
                    for (int v = 0; v < VECTORS; v++)                                                                \
                        sums[v][r] += d0 * x[v][0][j] + d1 * x[v][1][j] + d2 * x[v][2][j];                           \
                }                                                                                                    \
            for (int v = 0; v < VECTORS; v++)                                                                        \
                memcpy(out[v] + i, sums[v], sizeof sums[v]);                                                         \
        }                                                                                                            \
    }
PACKED_BY(packed_two_by_two, 2, 2)
PACKED_BY(packed_four_by_two, 4, 2)
PACKED_BY(packed_two_by_four, 2, 4)

// The packed products with two and with four vectors of 3 width words, by the quicker form of two, each beside the words
// of the others.
static void several(const word *packed, sizes n, int turns, word *const vectors[4])
{
    size_t count = n.rows * n.cols, packed_count = n.rows * n.width;
    word *made = zeros(4 * n.rows), *x[4][3], *out[4];
    for (int v = 0; v < 4; v++) {
        out[v] = made + v * n.rows;
        for (int u = 0; u < 3; u++) {
            x[v][u] = zeros(n.width);
            for (size_t j = 0; j < n.width; j++)
                x[v][u][j] = vectors[v][3 * j + u];
        }
    }
    double narrow = LEAST(turns, packed_two_by_two(packed, n.rows, n.width, x, out));
    double took = LEAST(turns, packed_four_by_two(packed, n.rows, n.width, x, out));
    say("packed matrix by two vectors at once", packed_count, 2 * count, took < narrow ? took : narrow, made, 2 * n.rows);
    took = LEAST(turns, packed_two_by_four(packed, n.rows, n.width, x, out));
    say("packed matrix by four vectors at once", packed_count, 4 * count, took, made, 4 * n.rows);
    for (int v = 0; v < 4; v++)
        free(x[v][0]), free(x[v][1]), free(x[v][2]);
    free(made);
}

static void vectors(const word *digits, sizes n)
{
    size_t count = n.rows * n.cols, packed_count = n.rows * n.width;
    word *x = filled(n.cols, 3, ~0u), *padded = zeros(3 * n.width), *out = zeros(n.rows), *sum = zeros(n.cols), one;
    word *packed = packed_of(digits, n);
    memcpy(padded, x, sizeof(word) * n.cols);

    double took = LEAST(TURNS, one = read_all(digits, count));
    say("read the flat matrix", count, 0, took, &one, 1);
    took = LEAST(TURNS, one = read_all(packed, packed_count));
    say("read the packed matrix", packed_count, 0, took, &one, 1);
    took = LEAST(TURNS, flat(digits, n.rows, n.cols, x, out));
    say("flat matrix by vector", count, count, took, out, n.rows);
    took = LEAST(TURNS, one = dot(digits, digits, count));
    say("one long dot product", count, count, took, &one, 1);
    took = LEAST(TURNS, (memset(sum, 0, sizeof(word) * n.cols), scaled(digits, n.rows, n.cols, 77, sum)));
    say("rows scaled and added", count, count, took, sum, n.cols);
    took = LEAST(TURNS, packed_eight(packed, n.rows, n.width, padded, out));
    say("packed matrix by vector", packed_count, count, took, out, n.rows);
    // Products with two vectors, one after the other.
    word *y = filled(n.cols, 8, ~0u), *padded_y = zeros(3 * n.width), *both = zeros(2 * n.rows);
    memcpy(padded_y, y, sizeof(word) * n.cols);
    took = LEAST(TURNS, (packed_eight(packed, n.rows, n.width, padded, both), packed_eight(packed, n.rows, n.width, padded_y, both + n.rows)));
    say("packed matrix by two vectors", packed_count, 2 * count, took, both, 2 * n.rows);
    several(packed, n, TURNS, (word *[]){padded, padded_y, padded, padded_y});
    took = LEAST(TURNS, packed_one(packed, n.rows, n.width, padded, out));
    say("packed matrix by vector, one row at once", packed_count, count, took, out, n.rows);
    free(x), free(padded), free(out), free(sum), free(packed), free(y), free(padded_y), free(both);
}

// The mean time of a packed product among many.
static void rate(const word *digits, sizes n)
{
    size_t count = n.rows * n.cols, packed_count = n.rows * n.width;
    word *x = filled(n.cols, 3, ~0u), *padded = zeros(3 * n.width), *out = zeros(n.rows), *packed = packed_of(digits, n);
    memcpy(padded, x, sizeof(word) * n.cols);
    double took = LEAST(1, for (int i = 0; i < IN_A_ROW; i++) packed_eight(packed, n.rows, n.width, padded, out));
    say("packed matrix by vector, in a row", packed_count, count, took / IN_A_ROW, out, n.rows);
    took = LEAST(1, for (int i = 0; i < IN_A_ROW; i++) packed_one(packed, n.rows, n.width, padded, out));
    say("packed matrix by vector, one row at once, in a row", packed_count, count, took / IN_A_ROW, out, n.rows);
    free(x), free(padded), free(out), free(packed);
}

// The packed products of a wide store.
static void wide(sizes n)
{
    size_t count = n.rows * n.cols, packed_count = n.rows * n.width;
    // Three digits of nine bits in a word, each in ten bits of it.
    word *packed = filled(packed_count, 1, 511u | 511u << 10 | 511u << 20), *out = zeros(n.rows), one;
    word *x = filled(3 * n.width, 3, ~0u), *y = filled(3 * n.width, 8, ~0u);
    double took = LEAST(3, one = read_all(packed, packed_count));
    say("read the packed matrix", packed_count, 0, took, &one, 1);
    took = LEAST(3, packed_one(packed, n.rows, n.width, x, out));
    say("packed matrix by vector, one row at once", packed_count, count, took, out, n.rows);
    took = LEAST(3, packed_eight(packed, n.rows, n.width, x, out));
    say("packed matrix by vector", packed_count, count, took, out, n.rows);
    several(packed, n, 3, (word *[]){x, y, x, y});
    free(packed), free(out), free(x), free(y);

    // What a query of two layers has between its passes over digits: those of the first layer's answer, four rows
    // of them, times the second public matrix, whose rows are rounded up to whole blocks.
    size_t inner = (n.rows + BLOCK - 1) / BLOCK * BLOCK;
    word *first = filled(4 * inner, 4, 511u), *public = filled(inner * n.secret, 2, ~0u), *made = zeros(4 * n.secret);
    took = LEAST(3, product_blocked(first, public, 4, inner, n.secret, made));
    say("four rows of digits by a public matrix", inner * n.secret, 4.0 * inner * n.secret, took, made, 4 * n.secret);
    free(first), free(public), free(made);
}

// The words of a hint, read once.
static void hint_read(sizes n)
{
    size_t count = n.rows * n.secret;
    word *hint = filled(count, 9, ~0u), all;
    double took = LEAST(TURNS, all = read_all(hint, count));
    say("a hint of 16 MiB read", count, 0, took, &all, 1);
    free(hint);
}

// The words of a frame of 16 MiB, after its header and nine other bytes, copied as bytes and back.
static void frame(sizes n)
{
    size_t limit = ((1 << 24) - 9) / 4, hint = n.rows * n.secret, count = hint < limit ? hint : limit;
    word *words = filled(count, 7, ~0u), *read = NULL;
    unsigned char *bytes = malloc(14 + 4 * count);
    double took = LEAST(TURNS, memcpy(bytes + 14, words, 4 * count));
    say("words copied", count, 0, took, words, count);
    took = LEAST(TURNS, (free(read), read = malloc(4 * count), memcpy(read, bytes + 14, 4 * count)));
    say("words copied into fresh memory", count, 0, took, read, count);
    free(words), free(bytes), free(read);
}

int main(int argc, char **argv)
{
    // The plain triple loop takes seconds: it is done where it is asked for.
    int is_plain = argc > 1 && !strcmp(argv[1], "plain");
    if (argc > 3 && !strcmp(argv[1], "wide")) {
        size_t rows = strtoul(argv[2], NULL, 10), cols = strtoul(argv[3], NULL, 10);
        wide((sizes){.rows = rows, .cols = cols, .width = (cols + 2) / 3, .secret = 1024});
        return 0;
    }
    sizes n = {.rows = 4096, .cols = 4096, .width = (4096 + 2) / 3, .secret = 1024};
    size_t count = n.rows * n.cols, made = n.rows * n.secret;
    double products = (double)count * n.secret;
    word *digits = filled(count, 1, DIGIT), *public = filled(n.cols * n.secret, 2, ~0u);
    if (argc > 1 && !strcmp(argv[1], "rate")) {
        rate(digits, n);
        return 0;
    }
    vectors(digits, n);
    hint_read(n);
    frame(n);

    word *out = zeros(made);
    double took = LEAST(1, product_blocked(digits, public, n.rows, n.cols, n.secret, out));
    say("D A1", count, products, took, out, made);
    if (is_plain) {
        took = LEAST(1, product(digits, public, n.rows, n.cols, n.secret, out));
        say("D A1, plain loops", count, products, took, out, made);
    }

    word *across = filled(n.secret * n.rows, 6, ~0u), *server = zeros(n.secret * 4 * n.rows);
    took = LEAST(TURNS, split(across, n.secret, n.rows, server));
    say("rows split into digits", count, 0, took, server, count);
    took = LEAST(1, product_blocked(server, public, n.secret * 4, n.rows, n.secret, out));
    say("H A2", count, products, took, out, made);
    return 0;
}
