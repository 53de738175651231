/*
 * Quindaf: judges a TIF, writes its TIC, and reads a TIC back.
 *
 * The functions work on lent memory alone. They allocate nothing, keep nothing
 * between calls, call nothing outside the library and always return, so any
 * number of threads may call them at the same time on memory of their own.
 *
 * Link target/staticlib/libexports.a (`tools/build.sh` writes it), on
 * x86-64 Linux.
 *
 * What every caller owes:
 *
 *  - A byte slice is a pointer and then its length in bytes. The pointer is
 *    never null; for a length of 0 it may be any other address. A pointer to
 *    uint64_t is aligned to 8 bytes and leads to as many numbers as its
 *    parameter says.
 *  - Memory behind a pointer to const may be lent twice, to one call or to
 *    several at once, and nobody writes it until they return.
 *  - Memory behind a pointer to non-const overlaps no other memory lent to the
 *    call, and nobody else reads or writes it until the call returns. It holds
 *    some value on entry: what a function leaves unchanged it may still read.
 *  - 128 KB of stack are free. quindaf_judge and quindaf_judge_with use about
 *    117 KB of it, the other functions less than 1 KB.
 *
 * Nothing else is asked: each function answers any lengths and any bytes.
 *
 * Columns and lines count from 1, places in a file from 0. Amounts are in 1/100
 * NOK. A TIF line has 810 bytes with its line feed, a TIC line 812; a TIC of n
 * listed lines has 324 + 812 n bytes, a station table of m lines 192 + 233 m.
 */
#ifndef QUINDAF_H
#define QUINDAF_H

#include <stddef.h>
#include <stdint.h>

#ifdef __cplusplus
extern "C" {
#endif

/* The most lines of a TIF or of a station table and the most open debits; the
 * words that are lent. */
#define QUINDAF_WORDS 9999

/* The length of a file name, and of each slot of the received names. */
#define QUINDAF_NAME_BYTES 35

/* The length of a TIC of n listed lines. */
#define QUINDAF_TIC_BYTES(n) (324 + 812 * (size_t)(n))

/* Call numbers of quindaf_judge and quindaf_judge_with. The first that applies is
 * given, in this order: E1 to E6, E8, E7. */
#define QUINDAF_ANSWERED 0     /* not refused: the summary says the rest */
#define QUINDAF_E1_NAME 1      /* file name out of form */
#define QUINDAF_E2_RECEPTION 2 /* reception moment not 14 bytes or not real */
#define QUINDAF_E3_CARD 3      /* code card wrong in length or character */
#define QUINDAF_E4_NAMES 4     /* received names not a multiple of 35 bytes */
#define QUINDAF_E5_BOOK 5      /* book out of form or above 1,048,576 bytes */
#define QUINDAF_E6_DEBITS 6    /* open debits or their marks out of form */
#define QUINDAF_E7_ROOM 7      /* output or records too few for the answer */
#define QUINDAF_E8_STATIONS 8  /* station table out of form; with one lent only */

/* File acceptances, as in the summary and in the values of a TIC. */
#define QUINDAF_00_FULL 0          /* every line accepted, or no line at all */
#define QUINDAF_01_PARTIAL 1       /* one line refused or more, also all */
#define QUINDAF_02_RECEIVED 2      /* name among those received */
#define QUINDAF_03_COUNTS 3        /* records or transactions disagree */
#define QUINDAF_04_TOTAL 4         /* footer total is not the sum of amounts */
#define QUINDAF_05_MISCELLANEOUS 5 /* file out of form */

/* Sides of a file: columns 74-76 of a TIF, columns 103-105 of a TIC. */
#define QUINDAF_NEITHER 0 /* "000" in a TIC; in a TIF missing or neither */
#define QUINDAF_CRE 1
#define QUINDAF_DEB 2

/*
 * A word is the verdict on one line as a number:
 *
 *     verdict + 256 a + 16777216 b
 *
 *     verdict = word % 256, 0 for an accepted line or 1 to 9 for L1 to L9;
 *     a = word / 256 % 65536;
 *     b = word / 16777216.
 *
 * A refused line has a = b = 0. An accepted debit has in a its agreement (1 to
 * 1,000) and in b its period (1 to 64), the first in book order that covers it.
 * An accepted credit has in a the debit that it took (1 to 9,999), and b = 0.
 */
#define QUINDAF_WORD_VERDICT(word) ((uint64_t)(word) % 256)
#define QUINDAF_WORD_A(word) ((uint64_t)(word) / 256 % 65536)
#define QUINDAF_WORD_B(word) ((uint64_t)(word) / 16777216)

/* Verdicts. The first refusal that applies is given, in this order: L1 to L3, L9,
 * L4 to L8. */
#define QUINDAF_ACCEPTED 0
#define QUINDAF_L1_TYPE 1      /* type not in Table 1 of AP-3.7, or of the other side */
#define QUINDAF_L2_FORM 2      /* exit moment not real; station, lane, counter or fee not digits */
#define QUINDAF_L3_ACTOR 3     /* exit actor is not the sender */
#define QUINDAF_L4_VEHICLE 4   /* tariff class, emission or fuel not listed */
#define QUINDAF_L5_PLATE 5     /* a plate or its nation out of form */
#define QUINDAF_L6_REPEATED 6  /* DEB: an earlier line has the same columns */
#define QUINDAF_L7_UNCOVERED 7 /* DEB: no period covers it */
#define QUINDAF_L8_NO_DEBIT 8  /* CRE: no separate open debit agrees */
#define QUINDAF_L9_STATION 9   /* a table is lent, and has not its actor, station and lane */

/* Places in the summary of quindaf_judge and quindaf_judge_with. */
#define QUINDAF_SUMMARY_ACCEPTANCE 0      /* 0 to 5 */
#define QUINDAF_SUMMARY_SIDE 1            /* 0 neither, 1 CRE, 2 DEB */
#define QUINDAF_SUMMARY_LINES 2           /* lines judged */
#define QUINDAF_SUMMARY_ACCEPTED 3        /* lines accepted */
#define QUINDAF_SUMMARY_REFUSED 4         /* lines refused */
#define QUINDAF_SUMMARY_TOTAL 5           /* amounts with VAT of all lines */
#define QUINDAF_SUMMARY_ACCEPTED_AMOUNT 6 /* of the accepted lines */
#define QUINDAF_SUMMARY_REFUSED_AMOUNT 7  /* of the refused lines */
#define QUINDAF_SUMMARY_TIC_LENGTH 8      /* bytes of TIC in the output */
#define QUINDAF_SUMMARY_NUMBERS 9

/*
 * Judges a TIF and writes its TIC. No station table is lent.
 *
 * name       file name of the TIF, 35 bytes: "TIF", sender 6, date YYYYMMDD,
 *            sequence 0001-9999, "_", receiver 6, "_130001"
 * received   reception moment, 14 bytes: YYYYMMDDhhmmss
 * card       code card, 16 bytes: two digits or capitals for each of L1 to L8
 * names      names received before, 35 bytes each; may be empty
 * book       agreement book, at least its two bytes of count
 * debits     open debits, 810 bytes each, at most 9,999; may be empty
 * marks      one byte for each open debit, 0 free or 1 taken; those of debits
 *            that a credit of this file takes become 1
 * tif        the TIF
 * room       how many lines the caller has records for: 00 and 01 with more
 *            lines than this give E7. With 9,999 it never does.
 * words      9,999 numbers: the word of line k goes to words[k - 1]. Those past
 *            the last line stay unchanged, and all do with 02 to 05.
 * out        the TIC goes to its front; what lies past it stays unchanged
 * summary    9 numbers, QUINDAF_SUMMARY_...; with 02 to 05 lines, counts and
 *            amounts are 0 and the length is 324
 *
 * Returns 0, or the call number 1 to 7; then marks, words, out and summary are
 * all unchanged.
 */
uint32_t quindaf_judge(
    const uint8_t *name, size_t name_length,
    const uint8_t *received, size_t received_length,
    const uint8_t *card, size_t card_length,
    const uint8_t *names, size_t names_length,
    const uint8_t *book, size_t book_length,
    const uint8_t *debits, size_t debits_length,
    uint8_t *marks, size_t marks_length,
    const uint8_t *tif, size_t tif_length,
    size_t room,
    uint64_t *words,
    uint8_t *out, size_t out_length,
    uint64_t *summary);

/*
 * Judges a TIF and writes its TIC, with a station table. All is as with
 * quindaf_judge, but for these:
 *
 * card       code card, 18 bytes: two digits or capitals for each of L1 to L9;
 *            16 bytes for L1 to L8 where tst_length is 0. The length of the
 *            table alone decides, also of one that is out of form.
 * tst        toll station table of AP-3.4, at most 9,999 lines. Its columns 1 and
 *            line feeds, version and record count are tested, and of each line
 *            the actor, station and lane, a triple that no other line has;
 *            nothing else of it is read. One of 192 bytes has no station. A
 *            length of 0 means that none is lent: then this is quindaf_judge.
 *
 * A line that passes L1 to L3 has L9 where its exit actor (columns 77-82), station
 * (84-87) and lane (88-91) are not those of a line of the table. A credit with L9
 * takes no debit.
 *
 * Returns 0, or the call number 1 to 8; then marks, words, out and summary are
 * all unchanged.
 */
uint32_t quindaf_judge_with(
    const uint8_t *name, size_t name_length,
    const uint8_t *received, size_t received_length,
    const uint8_t *card, size_t card_length,
    const uint8_t *names, size_t names_length,
    const uint8_t *book, size_t book_length,
    const uint8_t *debits, size_t debits_length,
    uint8_t *marks, size_t marks_length,
    const uint8_t *tif, size_t tif_length,
    const uint8_t *tst, size_t tst_length,
    size_t room,
    uint64_t *words,
    uint8_t *out, size_t out_length,
    uint64_t *summary);

/* Answers of the functions that read a TIC; the first that applies is given. */
#define QUINDAF_READ 0
#define QUINDAF_T1_LENGTH 1   /* length or line feeds */
#define QUINDAF_T2_HEADER 2   /* a header column out of form, or two TIFs named */
#define QUINDAF_T3_COUNTS 3   /* counts, lines, acceptance and side disagree */
#define QUINDAF_T4_LISTED 4   /* a listed line or its code out of form */
#define QUINDAF_T5_FOOTER 5   /* footer out of form, or not the lines' sums */
#define QUINDAF_T6_NO_LINE 6  /* no listed line of this number */
#define QUINDAF_TIC_ROOM 107  /* E7: output shorter than the TIC */

/* Places in the values of quindaf_read_tic. */
#define QUINDAF_TIC_ACCEPTANCE 0      /* 0 to 5 */
#define QUINDAF_TIC_SIDE 1            /* 0 neither, 1 CRE, 2 DEB */
#define QUINDAF_TIC_ACCEPTED 2        /* accepted lines, from the header */
#define QUINDAF_TIC_REJECTED 3        /* rejected lines, from the header */
#define QUINDAF_TIC_LISTED 4          /* lines listed */
#define QUINDAF_TIC_ACCEPTED_AMOUNT 5 /* from the footer */
#define QUINDAF_TIC_REJECTED_AMOUNT 6 /* from the footer */
#define QUINDAF_TIC_VALUES 7

/*
 * Reads a TIC.
 *
 * tic        the TIC
 * values     7 numbers, QUINDAF_TIC_...; unchanged unless 0 is returned
 *
 * Returns 0, or 1 to 5 for T1 to T5.
 */
uint32_t quindaf_read_tic(
    const uint8_t *tic, size_t tic_length,
    uint64_t *values);

/*
 * Says where a listed line stands in a TIC.
 *
 * tic        the TIC
 * k          which listed line, counted from 1; any number may be asked for
 * place      2 numbers: where the line (809 bytes, with its "1", without line
 *            feed) and its code (2 bytes) begin in the TIC, counted from 0;
 *            unchanged unless 0 is returned
 *
 * Returns 0, 1 to 5 for T1 to T5 of a TIC that does not read, or 6 for T6: k is
 * 0 or above the number of listed lines.
 */
uint32_t quindaf_listed(
    const uint8_t *tic, size_t tic_length,
    size_t k,
    uint64_t *place);

/*
 * Reads a TIC and writes what was read, which are the same bytes again.
 *
 * tic        the TIC
 * out        the text goes to its front; what lies past it stays unchanged, and
 *            all of it unless 0 is returned
 * length     1 number: the bytes written; unchanged unless 0 is returned
 *
 * Returns 0, 1 to 5 for T1 to T5, or 107 for E7: out is shorter than the TIC.
 */
uint32_t quindaf_rewrite_tic(
    const uint8_t *tic, size_t tic_length,
    uint8_t *out, size_t out_length,
    uint64_t *length);

#ifdef __cplusplus
}
#endif

#endif
