/* Typing and intervals from C, on a phrase file of 256 bytes, "ra", "in" and "rain". */
#include "nahypora.h"
#include <stdio.h>
#include <string.h>

#define RECORDS 12
#define TEXT 15

static uint8_t file[2048];
static uint32_t places[300], lefts[300], rights[300], prefixes[300], area[BPE_AREA];
static uint32_t last_codes[TEXT], numbers[TEXT + 1], ends[TEXT + 1], depths[TEXT + 1], work[TEXT];

static size_t put_row(size_t at, const char *row, size_t size) {
    file[at] = 0xc7;
    file[at + 1] = 0x51;
    file[at + 2] = (uint8_t)size;
    memcpy(file + at + 3, row, size);
    return at + 3 + size;
}

static void say(const char *what, uint64_t result) {
    printf("%s: cause %u, %u\n", what, (unsigned)bpe_cause(result), (unsigned)bpe_place(result));
}

static void list(const char *what, const uint32_t *numbers, size_t size) {
    printf("%s:", what);
    for (size_t i = 0; i < size; i++)
        printf(" %u", (unsigned)numbers[i]);
    printf("\n");
}

static void records(const bpe_head *head, const bpe_state *states) {
    for (size_t i = 0; i < head->len; i++)
        printf(" %c %u %u;", states[i].byte, (unsigned)states[i].code, (unsigned)states[i].count);
    printf("\n");
}

#define TABLES file, size, places, 300, lefts, 300, rights, 300, prefixes, 300, area, BPE_AREA

int main(void) {
    size_t size = 0;
    for (int byte = 0; byte < 256; byte++) {
        char row = (char)byte;
        size = put_row(size, &row, 1);
    }
    size = put_row(size, "ra", 2);
    size = put_row(size, "in", 2);
    size = put_row(size, "rain", 4);
    say("build", bpe_from_dictionary(file, size, 1, places, 300, lefts, 300, rights, 300, prefixes, 300, area, BPE_AREA));

    bpe_head head = {0};
    bpe_state states[RECORDS];
    memset(states, 0xee, sizeof states);
    for (const char *c = "rai"; *c; c++)
        say("append push", bpe_append_push(TABLES, (uint8_t)*c, &head, states, RECORDS));
    say("append extend", bpe_append_extend(TABLES, (const uint8_t *)"n again", 7, &head, states, RECORDS));
    say("append token count", bpe_append_token_count(TABLES, &head, states, RECORDS));
    records(&head, states);
    say("append extend", bpe_append_extend(TABLES, (const uint8_t *)"ing", 3, &head, states, RECORDS));
    say("append truncate", bpe_append_truncate(5, &head, states, RECORDS));
    say("append token count", bpe_append_token_count(TABLES, &head, states, RECORDS));
    states[3].count = 7;
    say("append push, a record changed", bpe_append_push(TABLES, 'x', &head, states, RECORDS));

    head.len = 0;
    say("prepend extend", bpe_prepend_extend(TABLES, (const uint8_t *)"nia", 3, &head, states, RECORDS));
    say("prepend push", bpe_prepend_push(TABLES, 'r', &head, states, RECORDS));
    say("prepend token count", bpe_prepend_token_count(TABLES, &head, states, RECORDS));
    records(&head, states);
    say("prepend truncate", bpe_prepend_truncate(9, &head, states, RECORDS));
    head.len = RECORDS + 1;
    say("prepend truncate, a head beyond the slice", bpe_prepend_truncate(9, &head, states, RECORDS));
    head.len = 0;
    say("extend on side 2", bpe_extend(TABLES, 2, (const uint8_t *)"nia", 3, &head, states, RECORDS));
    say("push on side 2", bpe_push(TABLES, 2, 'r', &head, states, RECORDS));
    say("token count on side 2", bpe_token_count(TABLES, 2, &head, states, RECORDS));
    say("truncate", bpe_truncate(3, &head, states, RECORDS));

    const uint8_t *text = (const uint8_t *)"rain again rain";
    say("prepare", bpe_interval_prepare(TABLES, text, TEXT, last_codes, TEXT, numbers, TEXT + 1, ends, TEXT + 1, depths,
                                        TEXT + 1, work, TEXT));
    list("last codes", last_codes, TEXT);
    list("numbers", numbers, TEXT + 1);
    list("ends", ends, TEXT + 1);
    list("depths", depths, TEXT + 1);
#define COUNT(start, end)                                                                                              \
    bpe_interval_count(TABLES, text, TEXT, last_codes, TEXT, numbers, TEXT + 1, ends, TEXT + 1, depths, TEXT + 1,      \
                       start, end, work, TEXT)
    say("count of 2 to 13", COUNT(2, 13));
    say("count of 4 to 4", COUNT(4, 4));
    say("count of 5 to 4", COUNT(5, 4));
    say("count of 5 to 16", COUNT(5, 16));
    return 0;
}
