/* Judges the job on standard input, with a station table if a file is named, and
 * reads the TIC back: `worked [table] < job`. */
#include "quindaf.h"

#include <stdio.h>
#include <string.h>

static uint8_t job[65537];
static uint8_t table[65536];
static uint8_t out[65536];
static uint8_t again[65536];
static uint64_t words[QUINDAF_WORDS];

/* A body of the job: its bytes and its length. */
struct body {
    uint8_t *bytes;
    size_t length;
};

/* Cuts the job into its eight bodies; 0 if it is not filled exactly. */
static int cut(size_t length, struct body *bodies) {
    size_t at = 32, i;
    if (length < 32 || length > 65536)
        return 0;
    for (i = 0; i < 8; i++) {
        const uint8_t *b = job + 4 * i;
        size_t wide = ((size_t)b[0] << 24) | ((size_t)b[1] << 16) | ((size_t)b[2] << 8) | b[3];
        if (wide > length - at)
            return 0;
        bodies[i].bytes = job + at;
        bodies[i].length = wide;
        at += wide;
    }
    return at == length;
}

static void print_answer(const uint64_t *summary) {
    static const char *const sides[] = {"000", "CRE", "DEB"};
    size_t i;
    printf("%02d", (int)summary[QUINDAF_SUMMARY_ACCEPTANCE]);
    printf(" %s", sides[summary[QUINDAF_SUMMARY_SIDE]]);
    for (i = QUINDAF_SUMMARY_LINES; i <= QUINDAF_SUMMARY_REFUSED_AMOUNT; i++)
        printf(" %llu", (unsigned long long)summary[i]);
    printf("\n");
    for (i = 0; i < summary[QUINDAF_SUMMARY_LINES]; i++)
        printf("line %d: verdict %d, a %d, b %d\n", (int)i + 1,
               (int)QUINDAF_WORD_VERDICT(words[i]), (int)QUINDAF_WORD_A(words[i]),
               (int)QUINDAF_WORD_B(words[i]));
}

/* Reads the TIC, shows its listed lines and writes it again. */
static int read_back(size_t length) {
    uint64_t values[QUINDAF_TIC_VALUES], place[2], written[1];
    size_t k;
    if (quindaf_read_tic(out, length, values) != QUINDAF_READ)
        return 1;
    for (k = 1; quindaf_listed(out, length, k, place) == QUINDAF_READ; k++)
        printf("listed %d: type %.2s, code %.2s\n", (int)k, (const char *)out + place[0] + 1,
               (const char *)out + place[1]);
    if (k != values[QUINDAF_TIC_LISTED] + 1 || length != QUINDAF_TIC_BYTES(k - 1))
        return 2;
    if (quindaf_rewrite_tic(out, length, again, length - 1, written) != QUINDAF_TIC_ROOM)
        return 3;
    if (quindaf_rewrite_tic(out, length, again, sizeof again, written) != QUINDAF_READ)
        return 4;
    return written[0] != length || memcmp(out, again, length) != 0;
}

static uint32_t judge(const struct body *b, uint64_t *summary) {
    return quindaf_judge(
        b[0].bytes, b[0].length, b[1].bytes, b[1].length, b[2].bytes, b[2].length,
        b[3].bytes, b[3].length, b[4].bytes, b[4].length, b[5].bytes, b[5].length,
        b[6].bytes, b[6].length, b[7].bytes, b[7].length,
        QUINDAF_WORDS, words, out, sizeof out, summary);
}

static uint32_t judge_with(const struct body *b, size_t table_length, uint64_t *summary) {
    return quindaf_judge_with(
        b[0].bytes, b[0].length, b[1].bytes, b[1].length, b[2].bytes, b[2].length,
        b[3].bytes, b[3].length, b[4].bytes, b[4].length, b[5].bytes, b[5].length,
        b[6].bytes, b[6].length, b[7].bytes, b[7].length, table, table_length,
        QUINDAF_WORDS, words, out, sizeof out, summary);
}

/* The bytes of the file, read into the table; 0 also if it does not open. */
static size_t read_table(const char *name) {
    FILE *file = fopen(name, "rb");
    size_t length;
    if (file == NULL)
        return 0;
    length = fread(table, 1, sizeof table, file);
    fclose(file);
    return length;
}

int main(int argc, char **argv) {
    struct body b[8];
    uint64_t summary[QUINDAF_SUMMARY_NUMBERS];
    uint32_t number;
    if (!cut(fread(job, 1, sizeof job, stdin), b)) {
        printf("J\n");
        return 0;
    }
    number = argc > 1 ? judge_with(b, read_table(argv[1]), summary) : judge(b, summary);
    if (number != QUINDAF_ANSWERED) {
        printf("E%d\n", (int)number);
        return 0;
    }
    print_answer(summary);
    return read_back((size_t)summary[QUINDAF_SUMMARY_TIC_LENGTH]);
}
