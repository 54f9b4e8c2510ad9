/* The kernels of crates/rs_bench over libfec's character codec: 8 bits, 0x11D, first root 0, 16 checks, 107 padded. */
#include <fec.h>
#include <stdint.h>
#include <stdio.h>
#include <stdlib.h>
#include <string.h>

#define DATA 132
#define LENGTH 148
#define CHECKS 16
#define PADDED 107

static void *codec;
static unsigned char words[4][LENGTH];

static void encode(const unsigned char *plain, unsigned char *word) {
    memcpy(word, plain, DATA);
    encode_rs_char(codec, word, word + DATA);
}

static void data(uint32_t turn, unsigned char *plain) {
    for (int k = 0; k < DATA; k++) plain[k] = (unsigned char)(k ^ turn);
}

static uint32_t mixed(uint32_t checksum, unsigned char byte) { return checksum * 31 + byte; }

static uint32_t encoded(uint32_t count) {
    unsigned char plain[DATA], word[LENGTH];
    uint32_t checksum = 0;
    data(0, plain);
    for (uint32_t turn = 0; turn < count; turn++) {
        plain[0] = (unsigned char)turn;
        plain[1] = (unsigned char)(turn >> 8);
        encode(plain, word);
        checksum = mixed(checksum, word[147]);
    }
    return checksum;
}

static void damaged(uint32_t turn, int wrong, unsigned char *word) {
    memcpy(word, words[turn % 4], LENGTH);
    for (int e = 0; e < wrong; e++) word[(turn % 148 + e * 9) % 148] ^= (unsigned char)(turn % 200 + e + 1);
}

static uint32_t mended(uint32_t count, int wrong) {
    unsigned char word[LENGTH];
    uint32_t checksum = 0;
    for (uint32_t turn = 0; turn < count; turn++) {
        damaged(turn, wrong, word);
        if (decode_rs_char(codec, word, NULL, 0) >= 0) checksum = mixed(checksum, word[turn % 148]);
    }
    return checksum;
}

static uint32_t erased_mended(uint32_t count) {
    unsigned char word[LENGTH];
    int places[16];
    uint32_t checksum = 0;
    for (uint32_t turn = 0; turn < count; turn++) {
        damaged(turn, 16, word);
        for (int e = 0; e < 16; e++) places[e] = (turn % 148 + e * 9) % 148;
        if (decode_rs_char(codec, word, places, 16) >= 0) checksum = mixed(checksum, word[turn % 148]);
    }
    return checksum;
}

static uint32_t checked(uint32_t count) {
    unsigned char word[LENGTH];
    uint32_t checksum = 0;
    for (uint32_t turn = 0; turn < count; turn++) {
        memcpy(word, words[turn % 4], LENGTH);
        checksum = mixed(checksum, decode_rs_char(codec, word, NULL, 0) == 0);
    }
    return checksum;
}

int main(int argc, char **argv) {
    if (argc < 3) return 2;
    uint32_t count = (uint32_t)strtoul(argv[2], NULL, 10), checksum;
    const uint32_t seeds[4] = {3, 5, 9, 17};
    codec = init_rs_char(8, 0x11D, 0, 1, CHECKS, PADDED);
    for (int i = 0; i < 4; i++) {
        unsigned char plain[DATA];
        data(seeds[i], plain);
        encode(plain, words[i]);
    }
    if (!strcmp(argv[1], "encode")) checksum = encoded(count);
    else if (!strcmp(argv[1], "check")) checksum = checked(count);
    else if (!strcmp(argv[1], "clean")) checksum = mended(count, 0);
    else if (!strcmp(argv[1], "wrong1")) checksum = mended(count, 1);
    else if (!strcmp(argv[1], "wrong4")) checksum = mended(count, 4);
    else if (!strcmp(argv[1], "wrong8")) checksum = mended(count, 8);
    else if (!strcmp(argv[1], "erased16")) checksum = erased_mended(count);
    else return 2;
    printf("%u\n", checksum);
    return 0;
}
