/* Wait files far longer than the memory: one stretch of lines 1,1 is mapped again and again, as often as the first argument says. 256 times
 * are more lines than 32 bits count. Places of refusals are exact as long as 32 bits hold them, and 4294967295 from there on, and the number
 * of the refusal stays what it is. With a second argument only one file is tried, malformed behind its last line.
 * Ends with a line 'N passed, M failed'. */
#define _GNU_SOURCE
#include "show.h"

#include <stdio.h>
#include <stdlib.h>
#include <string.h>
#include <sys/mman.h>
#include <time.h>
#include <unistd.h>

enum { STRETCH = 1 << 26, LINE = 4, LINES = STRETCH / LINE, PAGE = 4096, NAMES = 11 };

/* Two own cues, one link with label 1 from the first to the second. */
static const uint32_t rows[2 * SHOW_ROW_LEN] = {0, 0, 0, 2, 0, 0, 0, 0, 0, 0, 0, 0, 1, 1, 1, 2, 0, 0, 0, 0, 0, 0};
static uint64_t work[SHOW_WORK_LEN];
static uint32_t given[SHOW_GIVEN_LEN];
static unsigned passed, failed;

static void ended(const char *what) {
    perror(what);
    printf("%u passed, %u failed\n", passed, failed + 1);
    exit(1);
}

/* The file: names at the end of a page, then the stretches, the last of them a copy of its own, then a page of zeros. */
static uint8_t *mapped(size_t stretches, int lines) {
    size_t all = PAGE + stretches * (size_t)STRETCH + PAGE;
    uint8_t *file = mmap(NULL, all, PROT_READ | PROT_WRITE, MAP_PRIVATE | MAP_ANONYMOUS | MAP_NORESERVE, -1, 0);
    if (file == MAP_FAILED) ended("no addresses");
    for (size_t k = 0; k < stretches; k++) {
        int own = k + 1 == stretches;
        int rights = PROT_READ | (own ? PROT_WRITE : 0), shared = own ? MAP_PRIVATE : MAP_SHARED;
        if (mmap(file + PAGE + k * (size_t)STRETCH, STRETCH, rights, shared | MAP_FIXED, lines, 0) == MAP_FAILED) ended("not mapped");
    }
    memcpy(file + PAGE - NAMES, "label,wait\n", NAMES);
    return file + PAGE - NAMES;
}

/* The file of so many bytes is refused so, and the refusal changes nothing. */
static void refused(const uint8_t *file, size_t length, uint32_t number, uint64_t line) {
    struct timespec from, to;
    uint32_t place = line < UINT32_MAX ? (uint32_t)line : UINT32_MAX;
    work[0] = 99, given[0] = 98;
    clock_gettime(CLOCK_MONOTONIC, &from);
    uint64_t returned = show_quickest(rows, 2 * SHOW_ROW_LEN, 1, 2, file, length, work, SHOW_WORK_LEN, given, SHOW_GIVEN_LEN);
    clock_gettime(CLOCK_MONOTONIC, &to);
    int good = show_refusal(returned) == number && show_place(returned) == place && work[0] == 99 && given[0] == 98;
    if (good) passed++;
    else failed++;
    printf("%s: %zu bytes, refusal %u at line %llu: returned %u, %u after %.1f s\n", good ? "passed" : "FAILED", length, number,
           (unsigned long long)line, show_refusal(returned), show_place(returned),
           (double)(to.tv_sec - from.tv_sec) + (double)(to.tv_nsec - from.tv_nsec) / 1e9);
    fflush(stdout);
}

/* The same with this text, of the length of a line, in a line of the last stretch. */
static void with_line(uint8_t *file, size_t length, const char *text, uint32_t number, uint64_t line) {
    uint8_t *place = file + NAMES + (line - 2) * LINE;
    memcpy(place, text, LINE);
    refused(file, length, number, line);
    memcpy(place, "1,1\n", LINE);
}

int main(int many, char **words) {
    size_t stretches = many > 1 ? strtoul(words[1], NULL, 10) : 0;
    int lines = memfd_create("lines", 0);
    if (lines < 0 || ftruncate(lines, STRETCH) != 0) ended("no memory");
    uint8_t *stretch = mmap(NULL, STRETCH, PROT_READ | PROT_WRITE, MAP_SHARED, lines, 0);
    if (stretch == MAP_FAILED || stretches == 0) ended("no stretch");
    for (size_t place = 0; place < STRETCH; place += LINE) memcpy(stretch + place, "1,1\n", LINE);
    uint8_t *file = mapped(stretches, lines);
    size_t length = NAMES + stretches * (size_t)STRETCH;
    uint64_t last = 1 + (uint64_t)stretches * LINES;
    /* The page behind the last stretch begins with a byte 0, which is no value. */
    refused(file, length + 1, SHOW_BAD_WAIT_LINE, last + 1);
    if (many < 3) {
        for (uint64_t line = last - 3; line <= last; line++) with_line(file, length, "1;1\n", SHOW_BAD_WAIT_LINE, line);
        with_line(file, length, "0,1\n", SHOW_WAIT_OUT_OF_RANGE, last);
        with_line(file, length, "0,1\n", SHOW_WAIT_OUT_OF_RANGE, last - 3);
        refused(file, length, SHOW_WAITS_OUT_OF_ORDER, 3);
    }
    printf("%u passed, %u failed\n", passed, failed);
    return failed != 0;
}
