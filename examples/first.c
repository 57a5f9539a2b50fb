/* Reads a show file from standard input and tells how far it is from its first cue to its last. */
#include <show.h>
#include <stdio.h>

static uint8_t file[SHOW_MAX_FILE + 1];
static uint32_t rows[SHOW_ROWS_LEN], work[SHOW_WORK_LEN];

int main(void) {
    uint32_t given[SHOW_GIVEN_LEN], cues = 0;
    size_t length = fread(file, 1, sizeof file, stdin);
    uint64_t returned = show_read(file, length, rows, SHOW_ROWS_LEN, given, SHOW_GIVEN_LEN);
    if (returned == 0) {
        size_t rows_len = (size_t)given[0] * SHOW_ROW_LEN;
        cues = given[2];
        returned = show_fewest(rows, rows_len, 1, cues, work, SHOW_WORK_LEN, given, SHOW_GIVEN_LEN);
    }
    if (returned != 0) {
        uint32_t refusal = show_refusal(returned);
        fprintf(stderr, "refusal %u, place %u: %s\n", refusal, show_place(returned), show_refusal_text(refusal));
        return 1;
    }
    printf("fewest follow-ons from cue 1 to cue %u: ", cues);
    if (given[0] == 1)
        printf("%u\n", given[1]);
    else
        printf("none, no chain leads there\n");
    return 0;
}
