/* What include/show.h says beside the answers: constants, texts, lists of length 0 at NULL, pages of length 0, what a refusal leaves,
 * the blocks of the desk, wait files.
 * Ends with a line 'N passed, M failed'. */
#include "show.h"

#include <stdio.h>
#include <string.h>

static unsigned passed, failed;

static void tell(int good, const char *what) {
    if (good) {
        passed++;
    } else {
        failed++;
        printf("FAILED: %s\n", what);
    }
}

/* Two own cues, one link from the first to the second. */
static const uint32_t rows[2 * SHOW_ROW_LEN] = {0, 0, 0, 2, 0, 0, 0, 0, 0, 0, 0, 0, 1, 7, 1, 2, 0, 0, 0, 0, 0, 0};
static const char text[] = "block,kind,label,a,b,c,d,e,f,g,h\n0,0,0,2,0,0,0,0,0,0,0\n0,1,7,1,2,0,0,0,0,0,0\n";
/* Two own cues with the desk's last block between them. */
static const char desk_text[] = "block,kind,label,a,b,c,d,e,f,g,h\n16,0,0,2,0,0,0,0,0,0,0\n16,2,15,1,2,0,0,0,0,0,0\n";
enum { MANY = sizeof rows / sizeof rows[0], LENGTH = sizeof text - 1, DESK_LENGTH = sizeof desk_text - 1 };
static const uint8_t names[] = "label,wait\n";
enum { NAMES = sizeof names - 1 };
enum { DESK_MANY = (SHOW_DESK_ROWS + 2) * SHOW_ROW_LEN };
static uint32_t given[SHOW_GIVEN_LEN], numbers[SHOW_WORK_LEN], desk_rows[SHOW_ROWS_LEN], again[SHOW_ROWS_LEN];
static uint8_t out[SHOW_MAX_FILE];
static uint64_t wide[SHOW_WORK_LEN + 1];

static uint64_t code(uint32_t refusal, uint32_t place) { return (uint64_t)refusal << 32 | place; }

static uint64_t read_desk(const char *file, size_t length, uint32_t *to, size_t many, uint32_t *values, size_t count) {
    return show_read_desk((const uint8_t *)file, length, to, many, values, count);
}

static uint64_t quickest(uint32_t s, uint32_t t, const char *waits, uint64_t *work, size_t count) {
    return show_quickest(rows, MANY, s, t, (const uint8_t *)waits, strlen(waits), work, count, given, SHOW_GIVEN_LEN);
}

/* The texts of all refusals are there, in one line each, and no two are the same. */
static void texts(void) {
    for (uint32_t one = 0; one <= SHOW_WAITS_OUT_OF_ORDER + 1; one++) {
        const char *said = show_refusal_text(one);
        tell(strlen(said) > 7 && strchr(said, '\n') == NULL, "a refusal has a text of one line");
        for (uint32_t other = 0; other < one; other++) tell(strcmp(said, show_refusal_text(other)) != 0, "texts differ");
    }
    tell(strcmp(show_refusal_text(SHOW_WAITS_OUT_OF_ORDER + 1), show_refusal_text(UINT32_MAX)) == 0, "any number has a text");
    tell(show_refusal(code(13, 4)) == 13 && show_place(code(13, 4)) == 4, "a refusal is taken apart");
}

static void versions(void) {
    char parts[32];
    snprintf(parts, sizeof parts, "%d.%d.%d", SHOW_VERSION_MAJOR, SHOW_VERSION_MINOR, SHOW_VERSION_PATCH);
    tell(strcmp(parts, SHOW_VERSION) == 0, "the version is made of its parts");
}

/* Every list in turn has length 0 and is NULL. */
static void nulls(void) {
    tell(show_read(NULL, 0, numbers, SHOW_ROWS_LEN, given, SHOW_GIVEN_LEN) == code(SHOW_BAD_NAMES, 1), "read no file");
    tell(show_read((const uint8_t *)text, LENGTH, NULL, 0, given, SHOW_GIVEN_LEN) == code(SHOW_TOO_SHORT, 0), "read to no rows");
    tell(show_read((const uint8_t *)text, LENGTH, numbers, SHOW_ROWS_LEN, NULL, 0) == code(SHOW_TOO_SHORT, 0), "read, no given");
    tell(show_read(NULL, 0, NULL, 0, NULL, 0) == code(SHOW_BAD_NAMES, 1), "read nothing");
    tell(show_read_desk(NULL, 0, NULL, 0, NULL, 0) == code(SHOW_BAD_NAMES, 1), "read nothing behind the desk");
    tell(read_desk(desk_text, DESK_LENGTH, NULL, 0, given, SHOW_GIVEN_LEN) == code(SHOW_TOO_SHORT, 0), "read behind the desk to no rows");
    tell(read_desk(desk_text, DESK_LENGTH, numbers, SHOW_ROWS_LEN, NULL, 0) == code(SHOW_TOO_SHORT, 0), "read behind the desk, no given");
    tell(show_write(NULL, 0, out, SHOW_MAX_FILE, given, SHOW_GIVEN_LEN) == code(SHOW_BAD_ROW_COUNT, 0), "write no rows");
    tell(show_write(rows, MANY, NULL, 0, given, SHOW_GIVEN_LEN) == code(SHOW_TOO_SHORT, 0), "write to nothing");
    tell(show_write(rows, MANY, out, SHOW_MAX_FILE, NULL, 0) == code(SHOW_TOO_SHORT, 0), "write, no given");
    tell(show_count(NULL, 0, given, SHOW_GIVEN_LEN) == code(SHOW_BAD_ROW_COUNT, 0), "count no rows");
    tell(show_count(rows, MANY, NULL, 0) == code(SHOW_TOO_SHORT, 0), "count, no given");
    tell(show_locate(NULL, 0, 1, numbers, SHOW_PATH_LEN, given, SHOW_GIVEN_LEN) == code(SHOW_BAD_ROW_COUNT, 0), "locate, no rows");
    tell(show_locate(rows, MANY, 1, NULL, 0, given, SHOW_GIVEN_LEN) == code(SHOW_TOO_SHORT, 0), "locate, no path");
    tell(show_locate(rows, MANY, 1, numbers, SHOW_PATH_LEN, NULL, 0) == code(SHOW_TOO_SHORT, 0), "locate, no given");
    tell(show_number(NULL, 0, NULL, 0, 2, given, SHOW_GIVEN_LEN) == code(SHOW_BAD_ROW_COUNT, 0), "number, no rows");
    tell(show_number(rows, MANY, NULL, 0, 2, given, SHOW_GIVEN_LEN) == 0 && given[0] == 2, "number of the empty path");
    tell(show_number(rows, MANY, NULL, 0, 2, NULL, 0) == code(SHOW_TOO_SHORT, 0), "number, no given");
    tell(show_fewest(NULL, 0, 1, 2, numbers, SHOW_WORK_LEN, given, SHOW_GIVEN_LEN) == code(SHOW_BAD_ROW_COUNT, 0), "fewest, no rows");
    tell(show_fewest(rows, MANY, 1, 2, NULL, 0, given, SHOW_GIVEN_LEN) == code(SHOW_TOO_SHORT, 0), "fewest, no work area");
    tell(show_fewest(rows, MANY, 1, 2, numbers, SHOW_WORK_LEN, NULL, 0) == code(SHOW_TOO_SHORT, 0), "fewest, no given");
    tell(show_row(NULL, 0, 1, 2, numbers, SHOW_PATH_LEN, given, SHOW_GIVEN_LEN) == code(SHOW_BAD_ROW_COUNT, 0), "row, no rows");
    tell(show_row(rows, MANY, 1, 2, NULL, 0, given, SHOW_GIVEN_LEN) == code(SHOW_TOO_SHORT, 0), "row, no path");
    tell(show_row(rows, MANY, 1, 2, numbers, SHOW_PATH_LEN, NULL, 0) == code(SHOW_TOO_SHORT, 0), "row, no given");
    tell(show_quickest(NULL, 0, 1, 2, names, NAMES, wide, SHOW_WORK_LEN, given, SHOW_GIVEN_LEN) == code(SHOW_BAD_ROW_COUNT, 0),
         "quickest, no rows");
    tell(show_quickest(rows, MANY, 1, 2, NULL, 0, wide, SHOW_WORK_LEN, given, SHOW_GIVEN_LEN) == code(SHOW_BAD_WAIT_LINE, 1),
         "quickest, no wait file");
    tell(show_quickest(rows, MANY, 1, 2, names, NAMES, NULL, 0, given, SHOW_GIVEN_LEN) == code(SHOW_TOO_SHORT, 0), "quickest, no work area");
    tell(show_quickest(rows, MANY, 1, 2, names, NAMES, wide, SHOW_WORK_LEN, NULL, 0) == code(SHOW_TOO_SHORT, 0), "quickest, no given");
    tell(show_quickest(NULL, 0, 1, 2, NULL, 0, NULL, 0, NULL, 0) == code(SHOW_BAD_ROW_COUNT, 0), "quickest, nothing");
}

typedef uint64_t list(const uint32_t *, size_t, uint32_t, uint32_t, uint32_t *, size_t, uint32_t *, size_t);

/* A page of length 0 is answered: it says whether there is a cue above n. From cue v one link leads to or comes from `linked`. */
static void pages(list *ask, uint32_t v, uint32_t linked) {
    tell(ask(NULL, 0, v, 0, NULL, 0, given, SHOW_GIVEN_LEN) == code(SHOW_BAD_ROW_COUNT, 0), "a list of no rows");
    tell(ask(rows, MANY, v, 0, NULL, 0, NULL, 0) == code(SHOW_TOO_SHORT, 0), "a list, no given");
    tell(ask(rows, MANY, v, 0, NULL, 0, given, SHOW_GIVEN_LEN) == 0 && given[0] == 0 && given[1] == 1, "no page says more");
    tell(ask(rows, MANY, v, linked, NULL, 0, given, SHOW_GIVEN_LEN) == 0 && given[0] == 0 && given[1] == 0, "no page says no more");
    tell(ask(rows, MANY, linked, 0, NULL, 0, given, SHOW_GIVEN_LEN) == 0 && given[0] == 0 && given[1] == 0, "no cue, no more");
    numbers[0] = 0, numbers[1] = 99;
    tell(ask(rows, MANY, v, 0, numbers, 2, given, SHOW_GIVEN_LEN) == 0 && given[0] == 1 && given[1] == 0, "one cue and no more");
    tell(numbers[0] == linked && numbers[1] == 99, "the page holds the cue, and no more than that changed");
    tell(ask(rows, MANY, 3, 0, numbers, 2, given, SHOW_GIVEN_LEN) == code(SHOW_NO_SUCH_CUE, 0), "no such cue");
    tell(numbers[0] == linked && given[0] == 1, "a refusal changes nothing");
}

/* The row of the one link: in the show itself, so no number of the path list changes. No link leads back, or to the cue itself. */
static void links(void) {
    numbers[0] = 99, given[2] = 98;
    tell(show_row(rows, MANY, 1, 2, numbers, SHOW_PATH_LEN, given, SHOW_GIVEN_LEN) == 0 && given[0] == 2 && given[1] == 0, "row 2");
    tell(numbers[0] == 99 && given[2] == 98, "row and depth changed, and no more than that");
    given[0] = 97;
    tell(show_row(rows, MANY, 2, 1, numbers, SHOW_PATH_LEN, given, SHOW_GIVEN_LEN) == code(SHOW_NO_SUCH_LINK, 0), "no link back");
    tell(show_row(rows, MANY, 2, 2, numbers, SHOW_PATH_LEN, given, SHOW_GIVEN_LEN) == code(SHOW_NO_SUCH_LINK, 0), "no link to itself");
    tell(show_row(rows, MANY, 2, 3, numbers, SHOW_PATH_LEN, given, SHOW_GIVEN_LEN) == code(SHOW_NO_SUCH_CUE, 0), "no cue before no link");
    tell(show_row(rows, MANY, 0, 3, numbers, SHOW_PATH_LEN - 1, given, SHOW_GIVEN_LEN) == code(SHOW_TOO_SHORT, 0), "short before no cue");
    tell(show_row(rows, MANY - 1, 0, 3, numbers, 0, given, 0) == code(SHOW_BAD_ROW_COUNT, 0), "refused rows come first");
    tell(numbers[0] == 99 && given[0] == 97 && given[1] == 0 && given[2] == 98, "a refused row changes nothing");
}

/* A link is followed up to the last label that is; the one above it makes it a note, which a list and a row show. */
static void notes(void) {
    uint32_t noted[MANY];
    memcpy(noted, rows, sizeof rows);
    noted[SHOW_ROW_LEN + 2] = SHOW_MAX_FOLLOWED;
    tell(show_fewest(noted, MANY, 1, 2, numbers, SHOW_WORK_LEN, given, SHOW_GIVEN_LEN) == 0 && given[0] == 1, "the last label followed");
    noted[SHOW_ROW_LEN + 2] = SHOW_MAX_FOLLOWED + 1;
    tell(SHOW_MAX_FOLLOWED + 1 == SHOW_MAX_LABEL, "the label of a note is the last one");
    tell(show_fewest(noted, MANY, 1, 2, numbers, SHOW_WORK_LEN, given, SHOW_GIVEN_LEN) == 0 && !given[0] && !given[1], "no chain there");
    tell(show_list_out(noted, MANY, 1, 0, numbers, 1, given, SHOW_GIVEN_LEN) == 0 && given[0] == 1 && numbers[0] == 2, "a list has it");
    tell(show_row(noted, MANY, 1, 2, numbers, SHOW_PATH_LEN, given, SHOW_GIVEN_LEN) == 0 && given[0] == 2, "a note has a row");
}

/* What stands in the work area: from 7 on, rising, with something in both halves. */
static void fill(void) {
    for (size_t place = 0; place <= SHOW_WORK_LEN; place++) wide[place] = (uint64_t)place << 32 | (place + 7);
}

static int filled(void) {
    size_t place = 0;
    while (place <= SHOW_WORK_LEN && wide[place] == ((uint64_t)place << 32 | (place + 7))) place++;
    return place > SHOW_WORK_LEN;
}

/* The wait of label 7 is the way from cue 1 to cue 2. An answer leaves zeros in the work area and nothing else in it changed. */
static void waits(void) {
    size_t zeros = 0;
    fill();
    tell(quickest(1, 2, "label,wait\n7,25\n", wide, SHOW_WORK_LEN + 1) == 0 && given[0] == 1 && given[1] == 25 && !given[2], "25 tenths");
    while (zeros < SHOW_WORK_LEN && wide[zeros] == 0) zeros++;
    tell(zeros == SHOW_WORK_LEN && wide[zeros] == ((uint64_t)zeros << 32 | (zeros + 7)), "zeros, and behind them what was there");
    tell(quickest(1, 2, "label,wait\n7,6000\n", wide, SHOW_WORK_LEN) == 0 && given[1] == SHOW_MAX_WAIT, "the longest wait");
    tell(quickest(1, 2, "label,wait\n00007,00000\n", wide, SHOW_WORK_LEN) == 0 && given[0] == 1 && given[1] == 0, "a wait of 0");
    tell(quickest(1, 2, "label,wait\n6,9\n8,9\n", wide, SHOW_WORK_LEN) == 0 && given[0] == 1 && given[1] == 0, "a label without a line");
    tell(quickest(2, 1, "label,wait\n7,25\n", wide, SHOW_WORK_LEN) == 0 && !given[0] && !given[1] && !given[2], "no way back");
    tell(quickest(2, 2, "label,wait\n7,25\n", wide, SHOW_WORK_LEN) == 0 && given[0] == 1 && !given[1] && !given[2], "from a cue to itself");
}

/* What is refused of a wait file, in the order of the checks, changes nothing; so does what comes before it. */
static void waits_refused(void) {
    fill();
    given[0] = 98, given[1] = 97, given[2] = 96;
    tell(quickest(1, 2, "label,waits\n", wide, SHOW_WORK_LEN) == code(SHOW_BAD_WAIT_LINE, 1), "other names");
    tell(quickest(2, 2, "label,wait\n7,25", wide, SHOW_WORK_LEN) == code(SHOW_BAD_WAIT_LINE, 2), "no line feed, from a cue to itself");
    tell(quickest(1, 2, "label,wait\n7,6001\n7,1\n7\n", wide, SHOW_WORK_LEN) == code(SHOW_BAD_WAIT_LINE, 4), "malformed first");
    tell(quickest(1, 2, "label,wait\n7,1\n7,1\n7,6001\n", wide, SHOW_WORK_LEN) == code(SHOW_WAIT_OUT_OF_RANGE, 4), "then out of range");
    tell(quickest(1, 2, "label,wait\n0,1\n", wide, SHOW_WORK_LEN) == code(SHOW_WAIT_OUT_OF_RANGE, 2), "label 0");
    tell(quickest(1, 2, "label,wait\n255,1\n", wide, SHOW_WORK_LEN) == code(SHOW_WAIT_OUT_OF_RANGE, 2), "the label of a note");
    tell(quickest(1, 2, "label,wait\n7,1\n7,1\n", wide, SHOW_WORK_LEN) == code(SHOW_WAITS_OUT_OF_ORDER, 3), "then out of order");
    tell(quickest(1, 3, "", wide, SHOW_WORK_LEN) == code(SHOW_NO_SUCH_CUE, 0), "no cue before the wait file");
    tell(quickest(0, 3, "", wide, SHOW_WORK_LEN - 1) == code(SHOW_TOO_SHORT, 0), "short before no cue");
    tell(show_quickest(rows, MANY, 1, 2, names, NAMES, wide, SHOW_WORK_LEN, given, SHOW_GIVEN_LEN - 1) == code(SHOW_TOO_SHORT, 0),
         "quickest, given less 1");
    tell(show_quickest(rows, MANY - 1, 0, 3, NULL, 0, wide, 0, given, 0) == code(SHOW_BAD_ROW_COUNT, 0), "rows before all of it");
    tell(filled() && given[0] == 98 && given[1] == 97 && given[2] == 96, "a refused wait file changes nothing");
}

/* The desk's last block is a run of as many own cues as there are blocks of the desk, behind the file's first cue. */
static void desk(void) {
    static const uint32_t first[SHOW_ROW_LEN] = {0, 0, 2, 1}, last[SHOW_ROW_LEN] = {SHOW_DESK_BLOCKS - 1, 1, 1, 17, 1};
    const uint32_t *own = desk_rows + SHOW_DESK_ROWS * SHOW_ROW_LEN;
    tell(SHOW_DESK_ROWS + SHOW_DESK_MAX_OWN_ROWS == SHOW_MAX_ROWS, "the desk's rows and the file's are all");
    tell(read_desk(desk_text, DESK_LENGTH, desk_rows, DESK_MANY, given, SHOW_GIVEN_LEN) == 0, "read behind the desk's rows exactly");
    tell(given[0] == SHOW_DESK_ROWS + 2 && given[1] == SHOW_DESK_BLOCKS + 1 && given[2] == 18, "its rows, blocks and cues");
    tell(memcmp(desk_rows, first, sizeof first) == 0 && memcmp(own - SHOW_ROW_LEN, last, sizeof last) == 0, "the desk's end rows");
    tell(own[0] == SHOW_DESK_BLOCKS && own[3] == 2 && own[SHOW_ROW_LEN + 2] == SHOW_DESK_BLOCKS - 1, "the file's own rows behind them");
    tell(show_fewest(desk_rows, DESK_MANY, 1, 2, numbers, SHOW_WORK_LEN, given, SHOW_GIVEN_LEN) == 0 && given[1] == 17, "through the run");
    tell(show_fewest(desk_rows, DESK_MANY, 2, 1, numbers, SHOW_WORK_LEN, given, SHOW_GIVEN_LEN) == 0 && given[0] == 0, "and not back");
    tell(numbers[1] == 2 && numbers[SHOW_SUMMARY_LEN * 15 + 1] == 17 && numbers[8] == SHOW_NO_CHAIN, "summaries of the desk's blocks");
}

/* Rows that were read behind the desk's are a whole file, which is read as it is; the desk's file is not. */
static void whole(void) {
    tell(show_write(desk_rows, DESK_MANY, out, SHOW_MAX_FILE, given, SHOW_GIVEN_LEN) == 0, "the whole file is written");
    tell(show_read(out, given[0], again, SHOW_ROWS_LEN, given, SHOW_GIVEN_LEN) == 0 && given[0] == SHOW_DESK_ROWS + 2, "and read as it is");
    tell(memcmp(again, desk_rows, DESK_MANY * sizeof again[0]) == 0, "to the same rows");
    tell(show_read((const uint8_t *)desk_text, DESK_LENGTH, again, SHOW_ROWS_LEN, given, SHOW_GIVEN_LEN) == code(SHOW_CANNOT_FOLLOW, 2),
         "a file for the desk is not read as it is");
}

/* What is refused behind the desk's rows, at lines of the file, changes nothing. */
static void desk_refused(void) {
    numbers[0] = 99, given[0] = 98;
    tell(read_desk(text, LENGTH, numbers, SHOW_ROWS_LEN, given, SHOW_GIVEN_LEN) == code(SHOW_CANNOT_FOLLOW, 2), "a first row of block 0");
    tell(read_desk(text, 33, numbers, SHOW_ROWS_LEN, given, SHOW_GIVEN_LEN) == code(SHOW_BAD_ROW_COUNT, 0), "no rows but the desk's");
    tell(read_desk(desk_text, DESK_LENGTH - 1, numbers, 0, given, 0) == code(SHOW_BAD_LINE, 3), "no line feed");
    tell(read_desk(desk_text, DESK_LENGTH, numbers, DESK_MANY - 1, given, SHOW_GIVEN_LEN) == code(SHOW_TOO_SHORT, 0), "all rows less 1");
    tell(read_desk(desk_text, DESK_LENGTH, numbers, DESK_MANY, given, SHOW_GIVEN_LEN - 1) == code(SHOW_TOO_SHORT, 0), "desk, given less 1");
    tell(numbers[0] == 99 && given[0] == 98, "a refused file behind the desk changes nothing");
}

/* What the constants say is enough is enough, and one less is too short. */
static void sizes(void) {
    tell(show_read((const uint8_t *)text, LENGTH, numbers, MANY, given, SHOW_GIVEN_LEN) == 0 && given[0] == 2, "read exactly");
    tell(memcmp(numbers, rows, sizeof rows) == 0, "the rows that were read");
    tell(show_read((const uint8_t *)text, LENGTH, numbers, MANY - 1, given, SHOW_GIVEN_LEN) == code(SHOW_TOO_SHORT, 0), "rows less 1");
    tell(show_write(rows, MANY, out, LENGTH, given, SHOW_GIVEN_LEN) == 0 && given[0] == LENGTH, "written exactly");
    tell(memcmp(out, text, LENGTH) == 0, "the file that was written");
    tell(show_write(rows, MANY, out, LENGTH - 1, given, SHOW_GIVEN_LEN) == code(SHOW_TOO_SHORT, 0), "out less 1");
    tell(show_locate(rows, MANY, 1, numbers, SHOW_PATH_LEN, given, SHOW_GIVEN_LEN) == 0, "a path list is enough");
    tell(show_locate(rows, MANY, 1, numbers, SHOW_PATH_LEN - 1, given, SHOW_GIVEN_LEN) == code(SHOW_TOO_SHORT, 0), "path less 1");
    tell(show_fewest(rows, MANY, 1, 2, numbers, SHOW_WORK_LEN, given, SHOW_GIVEN_LEN) == 0 && given[1] == 1, "a work area is enough");
    tell(numbers[0] == SHOW_NO_CHAIN && numbers[SHOW_SUMMARY_LEN] == 0, "summaries of one block");
    tell(show_fewest(rows, MANY, 1, 2, numbers, SHOW_WORK_LEN - 1, given, SHOW_GIVEN_LEN) == code(SHOW_TOO_SHORT, 0), "work less 1");
    tell(show_row(rows, MANY, 1, 2, numbers, SHOW_PATH_LEN, given, SHOW_GIVEN_LEN) == 0, "a path list is enough for a row");
    tell(show_row(rows, MANY, 1, 2, numbers, SHOW_PATH_LEN - 1, given, SHOW_GIVEN_LEN) == code(SHOW_TOO_SHORT, 0), "row, path less 1");
    tell(show_row(rows, MANY, 1, 2, numbers, SHOW_PATH_LEN, given, SHOW_GIVEN_LEN - 1) == code(SHOW_TOO_SHORT, 0), "row, given less 1");
    tell(show_count(rows, MANY, given, SHOW_GIVEN_LEN - 1) == code(SHOW_TOO_SHORT, 0), "given less 1");
    tell(quickest(1, 2, "label,wait\n", wide, SHOW_WORK_LEN) == 0, "a work area of 64-bit numbers is enough");
    tell(quickest(1, 2, "label,wait\n", wide, SHOW_WORK_LEN - 1) == code(SHOW_TOO_SHORT, 0), "64-bit work less 1");
}

int main(void) {
    texts();
    versions();
    nulls();
    pages(show_list_out, 1, 2);
    pages(show_list_in, 2, 1);
    links();
    notes();
    waits();
    waits_refused();
    sizes();
    desk();
    whole();
    desk_refused();
    printf("%u passed, %u failed\n", passed, failed);
    return failed != 0;
}
