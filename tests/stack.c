/* Asks every question of the shows that are named as arguments, each on a stack of its own, and tells how much of it was used. Behind the
 * word --desk shows are read behind the desk's blocks. Ends with a line 'N passed, M failed': a question passes if it is answered within
 * SHOW_STACK_LEN bytes. That no link leads from the first cue to the last is an answer here. */
#define _DEFAULT_SOURCE
#include "show.h"

#include <stdio.h>
#include <string.h>
#include <sys/mman.h>
#include <ucontext.h>

enum { ROOM = SHOW_STACK_LEN + 64 * 1024, PATTERN = 0xA5, READ = 0, READ_DESK = 1, LOCATE = 4, ROW = 9, QUESTIONS = 11, LINES = 254 };

static uint8_t file[SHOW_MAX_FILE + 1], text[SHOW_MAX_FILE];
static uint32_t rows[SHOW_ROWS_LEN], work[SHOW_WORK_LEN], page[4096], path[SHOW_PATH_LEN], given[SHOW_GIVEN_LEN];
static uint64_t wide[SHOW_WORK_LEN];
static char waits[16 * LINES];
static size_t bytes, numbers, depth, waits_len;
static uint32_t cues, own;
static int question;
static uint64_t returned;
static ucontext_t here, there;

static const char *const names[QUESTIONS] = {"read",     "read_desk", "write",  "count", "locate",  "number",
                                            "list_out", "list_in",   "fewest", "row",   "quickest"};

/* A wait file with a line for every label that is followed. */
static void make_waits(void) {
    waits_len = (size_t)sprintf(waits, "label,wait\n");
    for (int label = 1; label <= LINES; label++) waits_len += (size_t)sprintf(waits + waits_len, "%d,%d\n", label, SHOW_MAX_WAIT - label);
}

static void ask(void) {
    switch (question) {
    case READ: returned = show_read(file, bytes, rows, SHOW_ROWS_LEN, given, SHOW_GIVEN_LEN); break;
    case READ_DESK: returned = show_read_desk(file, bytes, rows, SHOW_ROWS_LEN, given, SHOW_GIVEN_LEN); break;
    case 2: returned = show_write(rows, numbers, text, SHOW_MAX_FILE, given, SHOW_GIVEN_LEN); break;
    case 3: returned = show_count(rows, numbers, given, SHOW_GIVEN_LEN); break;
    case LOCATE: returned = show_locate(rows, numbers, cues, path, SHOW_PATH_LEN, given, SHOW_GIVEN_LEN); break;
    case 5: returned = show_number(rows, numbers, path, depth, own, given, SHOW_GIVEN_LEN); break;
    case 6: returned = show_list_out(rows, numbers, 1, 0, page, 4096, given, SHOW_GIVEN_LEN); break;
    case 7: returned = show_list_in(rows, numbers, 1, 0, page, 4096, given, SHOW_GIVEN_LEN); break;
    case 8: returned = show_fewest(rows, numbers, 1, cues, work, SHOW_WORK_LEN, given, SHOW_GIVEN_LEN); break;
    case ROW: returned = show_row(rows, numbers, 1, cues, path, SHOW_PATH_LEN, given, SHOW_GIVEN_LEN); break;
    case 10:
        returned = show_quickest(rows, numbers, 1, cues, (const uint8_t *)waits, waits_len, wide, SHOW_WORK_LEN, given, SHOW_GIVEN_LEN);
        break;
    }
}

static int answered(void) { return returned == 0 || (question == ROW && show_refusal(returned) == SHOW_NO_SUCH_LINK); }

/* How much of its stack a question used. */
static size_t used(uint8_t *stack) {
    size_t clean = 0;
    memset(stack, PATTERN, ROOM);
    getcontext(&there);
    there.uc_stack.ss_sp = stack;
    there.uc_stack.ss_size = ROOM;
    there.uc_link = &here;
    makecontext(&there, ask, 0);
    swapcontext(&here, &there);
    while (clean < ROOM && stack[clean] == PATTERN) clean++;
    return ROOM - clean;
}

int main(int many, char **shows) {
    uint8_t *stack = mmap(NULL, ROOM, PROT_READ | PROT_WRITE, MAP_PRIVATE | MAP_ANONYMOUS, -1, 0);
    size_t most[QUESTIONS] = {0};
    unsigned passed = 0, failed = 0;
    int desk = 0;
    make_waits();
    for (int show = 1; show < many; show++) {
        if (strcmp(shows[show], "--desk") == 0) {
            desk = 1;
            continue;
        }
        FILE *from = fopen(shows[show], "rb");
        bytes = from ? fread(file, 1, sizeof file, from) : 0;
        if (from) fclose(from);
        for (question = 0; question < QUESTIONS; question++) {
            if (question == (desk ? READ : READ_DESK)) continue;
            size_t now = used(stack);
            if (now > most[question]) most[question] = now;
            if (answered() && now <= SHOW_STACK_LEN) {
                passed++;
            } else {
                failed++;
                printf("%s of %s: returned %llu, %zu bytes of stack\n", names[question], shows[show], (unsigned long long)returned, now);
            }
            if (question <= READ_DESK) numbers = given[0] * (size_t)SHOW_ROW_LEN, cues = given[2];
            if (question == LOCATE) depth = given[0], own = given[2];
        }
    }
    for (question = 0; question < QUESTIONS; question++) printf("%s: at most %zu bytes of stack\n", names[question], most[question]);
    printf("%u passed, %u failed\n", passed, failed);
    return failed != 0;
}
