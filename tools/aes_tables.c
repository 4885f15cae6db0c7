/* The yardstick of `munge_bench aes`: AES encryption of chained blocks by four tables, as most C
   programs without AES instructions write it. Built and run by tools/bench. */
#include <stdint.h>
#include <stdio.h>
#include <string.h>
#include <time.h>

static uint8_t s_box[256];
static uint32_t table[4][256];

static uint8_t product(uint8_t c, uint8_t b) {
    uint8_t sum = 0;
    for (; c; c >>= 1, b = (uint8_t)(b << 1) ^ (b & 0x80 ? 0x1b : 0))
        if (c & 1) sum ^= b;
    return sum;
}

static void make_tables(void) {
    for (int b = 0; b < 256; b++) {
        uint8_t inverse = 0;
        for (int c = 1; c < 256; c++)
            if (product((uint8_t)c, (uint8_t)b) == 1) inverse = (uint8_t)c;
        uint8_t s = 0x63;
        for (int i = 0; i < 5; i++) s ^= (uint8_t)(inverse << i | inverse >> (8 - i));
        s_box[b] = s;
        uint32_t column = (uint32_t)product(2, s) << 24 | (uint32_t)s << 16 | (uint32_t)s << 8 | product(3, s);
        for (int row = 0; row < 4; row++)
            table[row][b] = row ? column >> 8 * row | column << (32 - 8 * row) : column;
    }
}

static uint32_t load(const uint8_t *p) {
    return (uint32_t)p[0] << 24 | (uint32_t)p[1] << 16 | (uint32_t)p[2] << 8 | p[3];
}

static void store(uint8_t *p, uint32_t w) {
    p[0] = (uint8_t)(w >> 24), p[1] = (uint8_t)(w >> 16), p[2] = (uint8_t)(w >> 8), p[3] = (uint8_t)w;
}

static uint32_t sub_word(uint32_t w) {
    return (uint32_t)s_box[w >> 24] << 24 | (uint32_t)s_box[w >> 16 & 255] << 16 | (uint32_t)s_box[w >> 8 & 255] << 8 | s_box[w & 255];
}

static int expand(const uint8_t *key, int nk, uint32_t *w) {
    uint8_t power = 1;
    for (int i = 0; i < nk; i++) w[i] = load(key + 4 * i);
    for (int i = nk; i < 4 * (nk + 7); i++) {
        uint32_t t = w[i - 1];
        if (i % nk == 0) t = sub_word(t << 8 | t >> 24) ^ (uint32_t)power << 24, power = product(2, power);
        else if (nk > 6 && i % nk == 4) t = sub_word(t);
        w[i] = w[i - nk] ^ t;
    }
    return nk + 6;
}

#define MIXED(a, b, c, d) (table[0][a >> 24] ^ table[1][b >> 16 & 255] ^ table[2][c >> 8 & 255] ^ table[3][d & 255])
#define LAST(a, b, c, d) ((uint32_t)s_box[a >> 24] << 24 | (uint32_t)s_box[b >> 16 & 255] << 16 | (uint32_t)s_box[c >> 8 & 255] << 8 | s_box[d & 255])

static __attribute__((noinline)) void encrypt(const uint32_t *w, int rounds, uint8_t *block) {
    uint32_t a = load(block) ^ w[0], b = load(block + 4) ^ w[1], c = load(block + 8) ^ w[2], d = load(block + 12) ^ w[3];
    for (int round = 1; round < rounds; round++) {
        const uint32_t *k = w + 4 * round;
        uint32_t e = MIXED(a, b, c, d) ^ k[0], f = MIXED(b, c, d, a) ^ k[1], g = MIXED(c, d, a, b) ^ k[2], h = MIXED(d, a, b, c) ^ k[3];
        a = e, b = f, c = g, d = h;
    }
    const uint32_t *k = w + 4 * rounds;
    store(block, LAST(a, b, c, d) ^ k[0]), store(block + 4, LAST(b, c, d, a) ^ k[1]);
    store(block + 8, LAST(c, d, a, b) ^ k[2]), store(block + 12, LAST(d, a, b, c) ^ k[3]);
}

static double seconds(void) {
    struct timespec t;
    clock_gettime(CLOCK_THREAD_CPUTIME_ID, &t);
    return (double)t.tv_sec + 1e-9 * (double)t.tv_nsec;
}

static void measure(int nk) {
    static uint8_t blocks[512][16];
    uint8_t key[32], last[16] = {0};
    uint32_t w[60];
    memset(key, 0x2b, sizeof key);
    int rounds = expand(key, nk, w);
    double bytes = 0, start = seconds(), time;
    do {
        for (int i = 0; i < 512; i++) {
            for (int j = 0; j < 16; j++) blocks[i][j] ^= last[j];
            encrypt(w, rounds, blocks[i]);
            memcpy(last, blocks[i], 16);
        }
        bytes += sizeof blocks;
        time = seconds() - start;
    } while (time < 1);
    printf("aes-%d encrypt %.1f MB/s\n", nk * 32, bytes / time / 1e6);
}

int main(void) {
    static const uint8_t answer[16] = {0x69, 0xc4, 0xe0, 0xd8, 0x6a, 0x7b, 0x04, 0x30, 0xd8, 0xcd, 0xb7, 0x80, 0x70, 0xb4, 0xc5, 0x5a};
    uint8_t key[16], block[16];
    uint32_t w[60];
    make_tables();
    for (int i = 0; i < 16; i++) key[i] = (uint8_t)i, block[i] = (uint8_t)(0x11 * i);
    encrypt(w, expand(key, 4, w), block);
    if (memcmp(block, answer, 16)) return 1;
    measure(4);
    measure(8);
    return 0;
}
