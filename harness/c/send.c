/* The library from C: a phrase file of 256 bytes, "ra", "in" and "rain"; a message sent, counted and decoded; refusals told, and what
 * ends them: another factor where two different rows clash, no factor where two rows are equal. */
#include "nahypora.h"
#include <stdio.h>
#include <string.h>

static uint8_t file[2048];
static uint32_t places[300], lefts[300], rights[300], prefixes[300], area[BPE_AREA];
static uint32_t codes[64], work[64];

static size_t put_row(size_t at, const char *row, size_t size) {
    file[at] = 0xc7;
    file[at + 1] = 0x51;
    file[at + 2] = (uint8_t)size;
    memcpy(file + at + 3, row, size);
    return at + 3 + size;
}

static size_t letters(size_t at) {
    for (int byte = 0; byte < 256; byte++) {
        char row = (char)byte;
        at = put_row(at, &row, 1);
    }
    return at;
}

static size_t put_rows(size_t at, const char *const *rows, size_t count) {
    for (size_t i = 0; i < count; i++)
        at = put_row(at, rows[i], strlen(rows[i]));
    return at;
}

static uint64_t build(size_t size, uint64_t factor) {
    return bpe_from_dictionary(file, size, factor, places, 300, lefts, 300, rights, 300, prefixes, 300, area, BPE_AREA);
}

#define TABLES file, size, places, 300, lefts, 300, rights, 300, prefixes, 300, area, BPE_AREA

int main(void) {
    const char *const rain[] = {"ra", "in", "rain"};
    size_t size = put_rows(letters(0), rain, 3);
    uint64_t built = build(size, 1);
    printf("build: cause %u, place %u\n", (unsigned)bpe_cause(built), (unsigned)bpe_place(built));

    const char *text = "rain again";
    size_t len = strlen(text);
    uint64_t sent = bpe_encode_via_backtracking(TABLES, (const uint8_t *)text, len, codes, 64, work, 64);
    uint64_t counted = bpe_count(TABLES, (const uint8_t *)text, len, work, 64);
    printf("sent %u codes, counted %u:", (unsigned)bpe_place(sent), (unsigned)bpe_place(counted));
    for (uint32_t i = 0; i < bpe_place(sent); i++)
        printf(" %u", (unsigned)codes[i]);
    uint8_t back[64];
    uint64_t decoded = bpe_decode_tokens(TABLES, codes, bpe_place(sent), back, 64);
    printf("\ndecoded: %.*s\n", (int)bpe_place(decoded), (const char *)back);

    size = put_row(0, "rain", 4);
    size = letters(size);
    uint64_t refused = build(size, 1);
    printf("a word above its letters: cause %u, row %u\n", (unsigned)bpe_cause(refused), (unsigned)bpe_place(refused));

    const char *const clash[] = {"cu", "ru", "lo", "curu", "curulo", "da", "ba", "dacu", "dacuba", "cu"};
    size = put_rows(letters(0), clash, 9);
    uint64_t factor = 1;
    for (built = build(size, factor); bpe_cause(built) == 13; built = build(size, ++factor))
        printf("factor %u: row %u clashes with an earlier one\n", (unsigned)factor, (unsigned)bpe_place(built));
    printf("factor %u: cause %u, place %u\n", (unsigned)factor, (unsigned)bpe_cause(built), (unsigned)bpe_place(built));
    size = put_rows(letters(0), clash, 10);
    refused = build(size, factor);
    printf("a word that stands there already: cause %u, row %u\n", (unsigned)bpe_cause(refused), (unsigned)bpe_place(refused));
    return 0;
}
