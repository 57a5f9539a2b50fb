/* Reads a show from standard input and prints how many cues it has, or the refusal and its place. */
#include "show.h"
#include <stdio.h>

static uint8_t file[SHOW_MAX_FILE + 1];
static uint32_t rows[SHOW_ROWS_LEN];

int main(void) {
    uint32_t given[SHOW_GIVEN_LEN];
    size_t length = fread(file, 1, sizeof file, stdin);
    uint64_t returned = show_read(file, length, rows, sizeof rows / sizeof rows[0], given, SHOW_GIVEN_LEN);
    if (returned == 0)
        returned = show_count(rows, (size_t)given[0] * SHOW_ROW_LEN, given, SHOW_GIVEN_LEN);
    if (returned != 0) {
        printf("refusal,place\n%u,%u\n", show_refusal(returned), show_place(returned));
        return 1;
    }
    printf("cues\n%u\n", given[0]);
    return 0;
}
