/* The closure of a relation over rows of bits in plain C, with vectors of 8 words, for comparison
   with crates/tfs_bench: in an order of the rows, if there is one, and by blocks of 64 rows. */
#include <stdint.h>
#include <stdio.h>
#include <stdlib.h>
#include <string.h>
#include <time.h>

#define MAX 4096
#define NONE 0xffff

typedef uint64_t lanes __attribute__((vector_size(64), aligned(8)));

static size_t stride_of(size_t size) { return (size + 511) / 512 * 8; }

static int get(const uint64_t *words, size_t i) { return words[i / 64] >> (i % 64) & 1; }

static void set(uint64_t *words, size_t i) { words[i / 64] |= (uint64_t)1 << (i % 64); }

static void clear(uint64_t *words, size_t i) { words[i / 64] &= ~((uint64_t)1 << (i % 64)); }

static size_t highest(uint64_t word) { return 63 - __builtin_clzll(word); }

static void unite(uint64_t *row, const uint64_t *other, size_t stride) {
    for (size_t i = 0; i < stride; i += 8) *(lanes *)(row + i) |= *(const lanes *)(other + i);
}

static int covers(const uint64_t *words, const uint64_t *others) {
    lanes missing = *(const lanes *)words & ~*(const lanes *)others;
    return !(missing[0] | missing[1] | missing[2] | missing[3] | missing[4] | missing[5] | missing[6] | missing[7]);
}

/* The order: each row waits for one target that isn't placed. */

static uint16_t order[MAX], waiting[MAX], behind[MAX];
static uint8_t from[MAX];
static uint64_t placed[MAX / 64];
static size_t order_len;

static size_t missing(const uint64_t *own, size_t stride, size_t word) {
    for (size_t block = word / 8 * 8; block < stride && covers(own + block, placed + block); block += 8) word = block + 8;
    while (word < stride && !(own[word] & ~placed[word])) word++;
    return word < stride ? word * 64 + highest(own[word] & ~placed[word]) : NONE;
}

static void try_row(const uint64_t *words, size_t stride, size_t row, size_t latest) {
    const uint64_t *own = words + row * stride;
    size_t target = missing(own, stride, from[row]);
    if (target == row) {
        set(placed, row);
        target = missing(own, stride, from[row]);
        clear(placed, row);
    }
    if (target == NONE) {
        set(placed, row);
        order[order_len++] = row;
        behind[row] = latest;
        return;
    }
    from[row] = target / 64;
    behind[row] = waiting[target];
    waiting[target] = row;
}

static int find_order(const uint64_t *words, size_t size, size_t stride) {
    order_len = 0;
    memset(waiting, 0xff, sizeof *waiting * size);
    memset(from, 0, size);
    memset(placed, 0, sizeof placed);
    for (size_t row = 0; row < size; row++) try_row(words, stride, row, NONE);
    for (size_t k = 0; k < order_len; k++)
        for (size_t row = waiting[order[k]], next; row != NONE; row = next) {
            next = behind[row];
            try_row(words, stride, row, order[k]);
        }
    return order_len == size;
}

static void gather_word(uint64_t *came, const uint64_t *words, size_t stride, size_t row, size_t word) {
    uint64_t left = words[row * stride + word] & ~came[word];
    if (word == row / 64) left &= ~((uint64_t)1 << (row % 64));
    while (left) {
        size_t k = highest(left);
        unite(came, words + (word * 64 + k) * stride, stride);
        left &= ~(came[word] | (uint64_t)1 << k);
    }
}

static void place(uint64_t *words, size_t stride, size_t row) {
    uint64_t came[MAX / 64], *own = words + row * stride;
    memset(came, 0, stride * 8);
    if (behind[row] != NONE) {
        unite(came, words + behind[row] * stride, stride);
        set(came, behind[row]);
    }
    for (size_t block = stride; block; block -= 8)
        if (!covers(own + block - 8, came + block - 8))
            for (size_t word = block; word > block - 8; word--) gather_word(came, words, stride, row, word - 1);
    unite(own, came, stride);
}

/* The blocks of 64 rows. */

static void take_in(uint64_t *row, const uint64_t *block, size_t width, size_t stride, size_t first) {
    uint64_t bits = row[first / 64] & UINT64_MAX >> (64 - width);
    while (bits) {
        size_t k = __builtin_ctzll(bits);
        const uint64_t *other = block + k * stride;
        bits &= ~(other[first / 64] | (uint64_t)1 << k);
        unite(row, other, stride);
    }
}

static void close_blocks(uint64_t *words, size_t size, size_t stride) {
    for (size_t first = 0; first < size; first += 64) {
        size_t width = size - first < 64 ? size - first : 64;
        uint64_t *block = words + first * stride;
        for (size_t k = 0; k < width; k++)
            for (size_t i = 0; i < width; i++)
                if (i != k && get(block + i * stride, first + k)) unite(block + i * stride, block + k * stride, stride);
        for (size_t i = 0; i < size; i++)
            if (i < first || i >= first + width) take_in(words + i * stride, block, width, stride, first);
    }
}

static void close_order(uint64_t *words, size_t size, size_t stride) {
    if (!find_order(words, size, stride)) {
        close_blocks(words, size, stride);
        return;
    }
    for (size_t k = 0; k < size; k++) place(words, stride, order[k]);
}

/* The relations. */

static uint64_t number;

static uint64_t draw(void) {
    number ^= number << 13;
    number ^= number >> 7;
    return number ^= number << 17;
}

struct resource {
    size_t first, count, rank;
    uint64_t place;
};

static int by_place(const void *left, const void *right) {
    uint64_t a = (*(struct resource *const *)left)->place, b = (*(struct resource *const *)right)->place;
    return (a > b) - (a < b);
}

static void relate_state(uint64_t *words, size_t size, int shuffled) {
    static struct resource resources[MAX], *places[MAX];
    size_t stride = stride_of(size), count = 0, first = 0;
    number = size + 1;
    for (size_t left = size; left; left -= resources[count++].count) {
        uint64_t drawn = draw();
        size_t instances = drawn % 4 < 2 ? 1 : 1 + (drawn >> 8) % 32;
        resources[count].count = instances < left ? instances : left;
        resources[count].place = shuffled ? draw() : count;
        places[count] = resources + count;
    }
    qsort(places, count, sizeof *places, by_place);
    for (size_t place = 0; place < count; place++) {
        places[place]->first = first;
        first += places[place]->count;
    }
    for (size_t rank = 0; rank < count; rank++)
        for (size_t some = 2 + draw() % 5; some; some--) {
            const struct resource *own = resources + rank, *other = resources + draw() % (rank ? rank : 1);
            if (rank)
                for (size_t i = 0; i < own->count; i++)
                    for (size_t j = 0; j < other->count; j++) set(words + (own->first + i) * stride, other->first + j);
        }
}

static void turn_round(uint64_t *words, size_t size) {
    size_t stride = stride_of(size);
    for (size_t i = 0; i < size; i++)
        for (size_t j = 0; j < size; j++)
            if (get(words + i * stride, j)) {
                set(words + j * stride, i);
                return;
            }
}

static void relate(uint64_t *words, size_t size, const char *kind) {
    size_t stride = stride_of(size);
    memset(words, 0, size * stride * 8);
    number = 1;
    if (!strcmp(kind, "chain")) {
        for (size_t next = 1; next < size; next++) set(words + (next - 1) * stride, next);
    } else if (!strcmp(kind, "layered")) {
        size_t width = size / 32;
        for (size_t i = 0; i < size; i++)
            for (int pair = 0; pair < 4; pair++) {
                size_t j = (i / width + 1) * width + draw() % width;
                if (j < size) set(words + i * stride, j);
            }
    } else if (!strcmp(kind, "dense")) {
        for (size_t i = 0; i < size; i++)
            for (size_t j = 0; j < size; j++)
                if (draw() >> 63) set(words + i * stride, j);
    } else {
        relate_state(words, size, strcmp(kind, "rising"));
        if (!strcmp(kind, "ancestries")) close_blocks(words, size, stride);
        if (!strcmp(kind, "cycle")) turn_round(words, size);
    }
}

static size_t count(const uint64_t *words, size_t size) {
    size_t pairs = 0;
    for (size_t i = 0; i < size * stride_of(size); i++) pairs += __builtin_popcountll(words[i]);
    return pairs;
}

static long nanoseconds(void) {
    struct timespec now;
    clock_gettime(CLOCK_MONOTONIC, &now);
    return now.tv_sec * 1000000000 + now.tv_nsec;
}

static long measure(void (*close_rows)(uint64_t *, size_t, size_t), uint64_t *words, size_t size, const char *kind) {
    long best = -1;
    int runs = size > 2048 ? 6 : size > 512 ? 20 : 200;
    for (int run = 0; run < runs; run++) {
        relate(words, size, kind);
        long start = nanoseconds();
        close_rows(words, size, stride_of(size));
        long took = nanoseconds() - start;
        if (best < 0 || took < best) best = took;
    }
    return best;
}

/* Writes pairs as two numbers of two bytes each, the low byte first, after the size and 0. */

static void put(size_t i, size_t j) {
    unsigned char bytes[] = {i & 255, i >> 8, j & 255, j >> 8};
    fwrite(bytes, 1, sizeof bytes, stdout);
}

static void put_pairs(const uint64_t *words, size_t size) {
    put(size, 0);
    for (size_t i = 0; i < size; i++)
        for (size_t j = 0; j < size; j++)
            if (get(words + i * stride_of(size), j)) put(i, j);
}

/* closure pairs KIND SIZE: prints the pairs of a relation. closure times KIND SIZE: prints the
   nanoseconds of its closure in an order and by blocks, and the number of pairs of the result. */

int main(int argc, char **argv) {
    size_t size = argc == 4 ? strtoul(argv[3], NULL, 10) : 0;
    uint64_t *words = malloc(MAX * stride_of(MAX) * 8);
    if (!words || !size || size > MAX) return 1;
    if (!strcmp(argv[1], "pairs")) {
        relate(words, size, argv[2]);
        put_pairs(words, size);
    } else {
        long order = measure(close_order, words, size, argv[2]), blocks = measure(close_blocks, words, size, argv[2]);
        printf("%ld %ld %zu\n", order, blocks, count(words, size));
    }
    free(words);
    return 0;
}
