/* show.h: show files of theatre lighting consoles, read, checked, written and asked, with every answer proved.
 *
 * For C99 or later and C++. Link with libshow_c.a, which is for Linux on x86-64 (ELF, System V calls) and needs nothing but memcpy
 * and memset of the C library. FORMAT.md, in docs/ and in share/doc/show of an installed copy, explains show files and wait files, the
 * words below and each refusal; examples/first.c of the repository is a whole program.
 *
 * What every function does:
 *
 *   Returned   0 for an answer, or a refusal: its number in the upper 32 bits, its place in the lower 32. show_refusal and
 *              show_place take them apart, show_refusal_text says the number in words.
 *   given      An answer writes its values to the first numbers of this list; it has at least SHOW_GIVEN_LEN. A shorter one is
 *              SHOW_TOO_SHORT.
 *   Refusals   A refusal changes nothing that was lent, `given` included. Checks run in the order of their numbers, but 5 to 8 row
 *              by row: the first row that fails one of them decides. What a function can refuse stands at the function.
 *   Lengths    Of every list, in elements: bytes of a file, 64-bit numbers of the work area of show_quickest, 32-bit numbers of
 *              anything else. Only as much of a list changes as an answer needs; a longer one is welcome.
 *   Pointers   Valid for their lengths; the lists of one call do not overlap. With length 0 any pointer will do, NULL too.
 *              There is no other duty: every function answers for all bytes, rows, numbers and lengths.
 *   Rows       Eleven numbers each, as show_read or show_read_desk leaves them: numbers 11 * (r - 1) and on are row r. Each call checks
 *              the rows again, so they may come from anywhere and may have been changed since. That took 4 to 8 ns a row.
 *   Files      There are two ways to read one. show_read takes it as it is. show_read_desk puts the SHOW_DESK_ROWS rows of the blocks
 *              that come with each desk before its rows; its own blocks then begin with number SHOW_DESK_BLOCKS. Whichever way
 *              a file was read, a place is its own line. Rows do not know how they were read: every function takes them.
 *   State      None. Nothing is allocated, nothing static is written, no call keeps a pointer: every function is reentrant, and calls
 *              that write to different lists may run at the same time.
 *   Stack      No call was seen to use more than 83 kB; the most seen stands at each function. SHOW_STACK_LEN is what the tests
 *              hold them to. This is tested, on the deepest shows too, and not proved.
 *
 * Times are of one core of an AMD EPYC, to tell what is quick and what is not. */
#ifndef SHOW_H
#define SHOW_H

#include <stddef.h>
#include <stdint.h>

/* The version of this header and of the library. The second number is raised by each change of what the functions answer. */
#define SHOW_VERSION "0.6.0"
#define SHOW_VERSION_MAJOR 0
#define SHOW_VERSION_MINOR 6
#define SHOW_VERSION_PATCH 0

/* A compiler that can warns where what a function returns is not looked at. */
#if defined(__cplusplus) && __cplusplus >= 201703L
#define SHOW_NODISCARD [[nodiscard]]
#elif defined(__STDC_VERSION__) && __STDC_VERSION__ >= 202311L
#define SHOW_NODISCARD [[nodiscard]]
#elif defined(__GNUC__)
#define SHOW_NODISCARD __attribute__((warn_unused_result))
#else
#define SHOW_NODISCARD
#endif

#ifdef __cplusplus
extern "C" {
#endif

/* Lengths of lists, and limits of shows. */
#define SHOW_ROW_LEN 11                               /* numbers of a row */
#define SHOW_MAX_ROWS 1024                            /* rows of a show, at most */
#define SHOW_ROWS_LEN (SHOW_ROW_LEN * SHOW_MAX_ROWS)  /* numbers of the rows of a show, at most */
#define SHOW_DESK_BLOCKS 16                           /* blocks that come with the desk: 0 to 15 */
#define SHOW_DESK_ROWS 168                            /* rows of the blocks that come with the desk */
#define SHOW_DESK_MAX_OWN_ROWS 856                    /* rows of a file that show_read_desk reads, at most */
#define SHOW_MAX_FILE 65536                           /* bytes of a show file, at most; a wait file has no such limit */
#define SHOW_MAX_VALUE 65535                          /* a value in a file, at most */
#define SHOW_MAX_BLOCKS 128                           /* blocks of a show, at most */
#define SHOW_MAX_OWN 255                              /* own cues of a block, at most */
#define SHOW_MAX_JOINS 8                              /* joins of a block, at most */
#define SHOW_MAX_LABEL 255                            /* label of a link, at most; the least is 1 */
#define SHOW_MAX_FOLLOWED 254                         /* label of a link that chains follow, at most; with 255 it is a note */
#define SHOW_MAX_WAIT 6000                            /* wait of a label, at most, in tenths of a second */
#define SHOW_MAX_CUES 2147483647                      /* cues of a show, at most */
#define SHOW_PATH_LEN 127                             /* least length of a list lent for a path; steps of a path, at most */
#define SHOW_WORK_LEN 16384                           /* least length of a work area, of 32-bit or of 64-bit numbers */
#define SHOW_SUMMARY_LEN 64                           /* numbers of the work area of show_fewest for each block */
#define SHOW_GIVEN_LEN 3                              /* least length of `given` */
#define SHOW_STACK_LEN 131072                         /* bytes of stack that are enough for each call, as far as it was tested */
#define SHOW_NO_CHAIN 4294967295u                     /* in the work area of show_fewest: no chain */

/* Refusals. The place is 0 unless it is named. */
enum {
    SHOW_ANSWERED = 0,
    SHOW_FILE_TOO_LONG = 1,  /* over SHOW_MAX_FILE bytes */
    SHOW_BAD_NAMES = 2,      /* the first line of the file is not the line of names; place: 1 */
    SHOW_BAD_LINE = 3,       /* place: the first line of the file that is not eleven values */
    SHOW_BAD_ROW_COUNT = 4,  /* a length that is no multiple of SHOW_ROW_LEN, no row, or over SHOW_MAX_ROWS, the desk's counted */
    SHOW_CANNOT_FOLLOW = 5,  /* block number or kind cannot follow here; place: row (of a file: line) */
    SHOW_OUT_OF_RANGE = 6,   /* a value out of its range, or an idle column that is not 0; place: row (of a file: line) */
    SHOW_NAMED_TWICE = 7,    /* a link or a use names a cue twice; place: row (of a file: line) */
    SHOW_OUT_OF_ORDER = 8,   /* a link that does not rise, a use that falls; place: row (of a file: line) */
    SHOW_BAD_BLOCK = 9,      /* last block with joins or no own cue, other block without joins; place: its opening's row (line) */
    SHOW_TOO_MANY_CUES = 10, /* a block that stands for over SHOW_MAX_CUES cues; place: its opening's row (line) */
    SHOW_TOO_SHORT = 11,     /* a lent output, path list, work area or `given` */
    SHOW_NO_SUCH_CUE = 12,   /* a cue number of 0 or above the count */
    SHOW_NO_SUCH_PATH = 13,  /* a path that leads nowhere, or an own cue that its block does not have */
    SHOW_NO_SUCH_LINK = 14,  /* no link leads from the one cue to the other */
    SHOW_BAD_WAIT_LINE = 15, /* place: the first line of the wait file that is not two values, 1 for wrong names */
    SHOW_WAIT_OUT_OF_RANGE = 16,  /* place: the first line of the wait file whose label or wait is out of its range */
    SHOW_WAITS_OUT_OF_ORDER = 17  /* place: the first line of the wait file whose label is not above the one before */
};

/* The number and the place of what a function returned. */
static inline uint32_t show_refusal(uint64_t returned) { return (uint32_t)(returned >> 32); }
static inline uint32_t show_place(uint64_t returned) { return (uint32_t)returned; }

/* A refusal's number in words: one line, without its place. Any number may be asked. */
static inline const char *show_refusal_text(uint32_t refusal) {
    switch (refusal) {
    case SHOW_ANSWERED: return "answered";
    case SHOW_FILE_TOO_LONG: return "the file has more than 65,536 bytes";
    case SHOW_BAD_NAMES: return "the first line is not block,kind,label,a,b,c,d,e,f,g,h";
    case SHOW_BAD_LINE: return "the line is not eleven values";
    case SHOW_BAD_ROW_COUNT: return "there is no row, there are more than 1,024, or the last one is not whole";
    case SHOW_CANNOT_FOLLOW: return "the block number or the kind cannot follow here";
    case SHOW_OUT_OF_RANGE: return "a value is out of its range, or an idle column is not 0";
    case SHOW_NAMED_TWICE: return "a link or a use names a cue twice";
    case SHOW_OUT_OF_ORDER: return "links or uses are not in order";
    case SHOW_BAD_BLOCK: return "the last block has joins or no own cue, or another block has no joins";
    case SHOW_TOO_MANY_CUES: return "the block stands for more than 2,147,483,647 cues";
    case SHOW_TOO_SHORT: return "a lent list is too short";
    case SHOW_NO_SUCH_CUE: return "the show has no cue of this number";
    case SHOW_NO_SUCH_PATH: return "no copy has this path, or its block has no such own cue";
    case SHOW_NO_SUCH_LINK: return "no link leads from the one cue to the other";
    case SHOW_BAD_WAIT_LINE: return "the line of the wait file is not two values, or the first is not label,wait";
    case SHOW_WAIT_OUT_OF_RANGE: return "a label or a wait of the wait file is out of its range";
    case SHOW_WAITS_OUT_OF_ORDER: return "the labels of the wait file do not rise";
    default: return "an unknown refusal";
    }
}

/* Reads a file to rows.
 *   given      rows, blocks, cues
 *   rows       output: 11 numbers for each row. SHOW_ROWS_LEN is enough for every file; the length need not be a multiple of 11.
 *   Refusals   1 to 10, then 11 for rows or given. Places of 3 and 5 to 10 are lines of the file, counted from 1: row r is line r + 1.
 *   Values     have up to five digits and are at most 65535; they may begin with zeros, as older desks write them.
 *   file       SHOW_MAX_FILE + 1 bytes are all that has to be read of one on a disk: one byte over the limit, and it is refused. A buffer
 *              of SHOW_MAX_FILE would cut a longer file, and what is left may be a show.
 *   Cost       0.7 to 1.1 ns a byte and half a microsecond: 21 us for 1,024 rows in 24,028 bytes. Stack: 51 kB. */
SHOW_NODISCARD uint64_t show_read(const uint8_t *file, size_t file_len, uint32_t *rows, size_t rows_len, uint32_t *given,
                                  size_t given_len);

/* Reads a file to rows, with the rows of the blocks that come with the desk before its own.
 *   Blocks     0 to 15, in SHOW_DESK_ROWS rows. Block k has k + 1 own cues in a line: join 1 leads in to the first of them, each to the
 *              one behind it, and the last out to join 2, by links that all have label 1; that is k + 2 follow-ons. The
 *              program desk_blocks of the repository prints them.
 *   file       Its own rows alone, 1 to SHOW_DESK_MAX_OWN_ROWS. The first one opens block SHOW_DESK_BLOCKS, and any block of the file can
 *              use those of the desk. Its bytes, names and values are as for show_read, and so is its limit of bytes.
 *   given      rows and blocks, the desk's counted, and cues
 *   rows       output: 11 numbers for each of these rows, the desk's first. SHOW_ROWS_LEN is enough for every file.
 *   Refusals   1 to 3; 4 for no row of its own, or over SHOW_DESK_MAX_OWN_ROWS; 5 at line 2 unless the first row opens block
 *              SHOW_DESK_BLOCKS, also where it would go on with block 15; 5 to 10 over all rows, then 11 for rows or given. A
 *              129th block, the desk's counted, is 5. Places of 3 and 5 to 10 are lines of the file: row r of all is line r - 167.
 *   Writing    show_write makes a whole file of these rows, the desk's among them, that show_read reads to the same rows.
 *   Cost       as show_read, and 1 us for the rows of the desk: 18 us for 856 rows in 20,249 bytes. Stack: 48 kB. */
SHOW_NODISCARD uint64_t show_read_desk(const uint8_t *file, size_t file_len, uint32_t *rows, size_t rows_len, uint32_t *given,
                                       size_t given_len);

/* Writes rows as a file, without leading zeros: a file that show_read took in and that had none comes back byte for byte, any other
 * without them. Of rows that show_read_desk gave it is a whole file, which show_read reads to the same rows.
 *   given      bytes of the file
 *   out        output. SHOW_MAX_FILE bytes are always enough (proved), and for rows that show_read gave, as many as that file had.
 *   Refusals   4, 5 to 10 with rows as places, then 11 for out or given.
 *   Cost       14 us for 1,024 rows. Stack: 4 kB. */
SHOW_NODISCARD uint64_t show_write(const uint32_t *rows, size_t rows_len, uint8_t *out, size_t out_len, uint32_t *given,
                                   size_t given_len);

/* How many cues the show has.
 *   given      cues, 1 to SHOW_MAX_CUES
 *   Refusals   4, 5 to 10 with rows as places, then 11 for given. So this is also the check of rows.
 *   Cost       70 ns for a show of 9 rows, 5 us for one of 1,024. Stack: 3 kB. */
SHOW_NODISCARD uint64_t show_count(const uint32_t *rows, size_t rows_len, uint32_t *given, size_t given_len);

/* Where cue n is.
 *   given      depth, block (from 0), own cue (from 1)
 *   path       output: depth numbers, each the position of a use in its block, from 1. At least SHOW_PATH_LEN, whatever the depth.
 *   Refusals   4, 5 to 10 with rows as places, 11 for path or given, then 12 for n.
 *   Cost       as show_count. Stack: 15 kB. */
SHOW_NODISCARD uint64_t show_locate(const uint32_t *rows, size_t rows_len, uint32_t n, uint32_t *path, size_t path_len, uint32_t *given,
                                    size_t given_len);

/* The number of own cue `own` in the copy to which path leads: show_locate turned round.
 *   given      number
 *   path       input: as many steps as it has numbers; length 0 is the show itself.
 *   Refusals   4, 5 to 10 with rows as places, 11 for given, then 13 for path and own.
 *   Cost       as show_count. Stack: 13 kB. */
SHOW_NODISCARD uint64_t show_number(const uint32_t *rows, size_t rows_len, const uint32_t *path, size_t path_len, uint32_t own,
                                    uint32_t *given, size_t given_len);

/* The cues that follow on from cue v by one link, notes included, those above n: rising, each once, as many as the page has room for.
 *   given      cues written, 1 if there are more and 0 if not
 *   n          any number: 0 for the first page, then the last cue of the page before.
 *   page       output. No page is too short: one of length 0 (it may be NULL) only says whether there are any. A loop over pages
 *              needs room for one cue at least, or it does not come forward.
 *   Refusals   4, 5 to 10 with rows as places, 11 for given, then 12 for v.
 *   Cost       one to four times show_count, and some 7 ns a cue. Stack: 83 kB on a show of 127 levels. */
SHOW_NODISCARD uint64_t show_list_out(const uint32_t *rows, size_t rows_len, uint32_t v, uint32_t n, uint32_t *page, size_t page_len,
                                      uint32_t *given, size_t given_len);

/* The cues from which cue v follows on, in the same way. */
SHOW_NODISCARD uint64_t show_list_in(const uint32_t *rows, size_t rows_len, uint32_t v, uint32_t n, uint32_t *page, size_t page_len,
                                     uint32_t *given, size_t given_len);

/* The fewest follow-ons from cue s to cue t.
 *   given      1 and their number, or 0 and 0 if no chain leads from s to t
 *   Label 255  A link with this label, above SHOW_MAX_FOLLOWED, is a note and is not followed: no chain has it, and the summaries in
 *              work leave it out. Lists and show_row show it.
 *   work       at least SHOW_WORK_LEN; what stands there does not matter. After an answer it holds the fewest from join i to join j
 *              inside block k (joins from 1, blocks from 0) at SHOW_SUMMARY_LEN * k + 8 * (i - 1) + (j - 1), SHOW_NO_CHAIN for none
 *              and for a join that the block does not have, and 0 behind the last block up to SHOW_WORK_LEN numbers.
 *   Refusals   4, 5 to 10 with rows as places, 11 for work or given, then 12 for s or t.
 *   Cost       1 us for a show of 9 rows, 40 us for common ones of 1,024, 0.4 ms for 128 blocks of eight joins; the worst that was
 *              found took 78 ms. Stack: 21 kB. */
SHOW_NODISCARD uint64_t show_fewest(const uint32_t *rows, size_t rows_len, uint32_t s, uint32_t t, uint32_t *work, size_t work_len,
                                    uint32_t *given, size_t given_len);

/* The quickest way from cue s to cue t, where each link waits as long as the wait file says for its label.
 *   given      1 and the smallest sum of waits over all chains from s to t, in tenths of a second, its lower 32 bits and then its
 *              upper ones; 0, 0 and 0 if no chain leads from s to t, which is so exactly where show_fewest finds none.
 *              The sum is (uint64_t)given[2] << 32 | given[1]; it is 0 where s is t.
 *   waits      the wait file: the line `label,wait`, then a line for each label that waits, its label of 1 to SHOW_MAX_FOLLOWED and
 *              its wait of 0 to SHOW_MAX_WAIT tenths, as "1,10\n2,25\n". Labels rise from line to line. Values, commas and line
 *              feeds are as in a show file, and the last line has its line feed too. A label without a line waits 0; notes have no
 *              wait and are not followed. The file may have any length: refusals 1 to 3 are for show files only.
 *   work       at least SHOW_WORK_LEN 64-bit numbers; what stands there does not matter. After an answer the first SHOW_WORK_LEN of
 *              them are 0, and the others are as they were.
 *   Refusals   4, 5 to 10 with rows as places, 11 for work or given, 12 for s or t, then those of the wait file, also where s is t:
 *              15 with the first line that is not two values (1 where the first line is not the names), 16 with the first line
 *              whose label or wait is out of its range, 17 with the first line whose label is not above that of the line before.
 *              Each of these goes over the whole file before the next. Lines are counted from 1; one from 4294967295 on is told
 *              as 4294967295.
 *   Cost       as show_fewest or twice that, and some 1 ns a byte of the wait file. Stack: 27 kB. */
SHOW_NODISCARD uint64_t show_quickest(const uint32_t *rows, size_t rows_len, uint32_t s, uint32_t t, const uint8_t *waits,
                                      size_t waits_len, uint64_t *work, size_t work_len, uint32_t *given, size_t given_len);

/* The row behind a follow-on that a list shows: a link row that joins cue s to cue t, and the copy of its block in which it does.
 *   given      row (from 1), depth of that copy. In a file that was read with show_read it is line row + 1; with show_read_desk, line
 *              row - 167, and a row up to SHOW_DESK_ROWS is the desk's and stands in no line.
 *   path       output: the path of that copy, depth numbers, each the position of a use in its block, from 1. At least SHOW_PATH_LEN,
 *              whatever the depth.
 *   Which one  Each copy counts whose block sees both cues, as own cues or as joins, and each label. Of several rows the one with the
 *              shortest path is given; of two that are as long, the one with the smaller number at the first step where they
 *              differ; in one copy, the first row.
 *   Editing    The row's numbers are 11 * (row - 1) and on. A row is written once for all copies of its block, so what is changed
 *              there changes in each of them, and another row may join s to t as well.
 *   Refusals   4, 5 to 10 with rows as places, 11 for path or given, 12 for s or t, then 14, as for every cue with itself.
 *   Cost       one to three times show_count; 90 us for 128 blocks of eight joins. Stack: 16 kB. */
SHOW_NODISCARD uint64_t show_row(const uint32_t *rows, size_t rows_len, uint32_t s, uint32_t t, uint32_t *path, size_t path_len,
                                 uint32_t *given, size_t given_len);

#ifdef __cplusplus
}
#endif

#endif
