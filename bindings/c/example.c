/* Runs a block on three workers and writes its closing sheet to standard output: example BLOCK > SHEET.
 * Each worker in turn takes the first waiting call that begins, or makes a step of the call that it holds. */
#include <stdio.h>

#include "zumbiqa.h"

#define WORKERS 3

static uint8_t block[ZUMBIQA_MAX_BLOCK + 1], sheet[ZUMBIQA_MAX_SHEET];
static uint64_t head[ZUMBIQA_HEAD_SIZE], plan[ZUMBIQA_PLAN_SIZE], keys[ZUMBIQA_KEYS_SIZE];
static uint64_t status[ZUMBIQA_STATUS_SIZE], seats[ZUMBIQA_SEATS_SIZE];
static int64_t cells[ZUMBIQA_CELLS_SIZE], frames[ZUMBIQA_FRAMES_SIZE];

/* What every call of this program lends of its run. */
#define RUN                                                                                           \
    ZUMBIQA_SLICE(head), ZUMBIQA_SLICE(plan), ZUMBIQA_SLICE(keys), ZUMBIQA_SLICE(cells),              \
        ZUMBIQA_SLICE(status), ZUMBIQA_SLICE(seats), ZUMBIQA_SLICE(frames)

static void take_turn(size_t length, size_t worker) {
    if (head[ZUMBIQA_HEAD_HELD + worker] != 0) {
        zumbiqa_step(block, length, RUN, worker);
        return;
    }
    for (size_t call = 0; call < head[ZUMBIQA_HEAD_CALLS]; call++)
        if (zumbiqa_begin(RUN, worker, call) == ZUMBIQA_ACCEPTED)
            return;
}

int main(int count, char **words) {
    FILE *file = count == 2 ? fopen(words[1], "rb") : NULL;
    if (file == NULL) {
        fprintf(stderr, "usage: example BLOCK, a file that can be read\n");
        return 2;
    }
    size_t length = fread(block, 1, sizeof block, file);
    if (ferror(file) || fclose(file) != 0)
        return perror(words[1]), 2;

    uint64_t offset, size, number = zumbiqa_open(block, length, WORKERS, RUN, &offset);
    if (number != ZUMBIQA_OPENED) {
        fprintf(stderr, "the block is refused by %d at %d\n", (int)number, (int)offset);
        return 1;
    }
    while ((number = zumbiqa_sheet(RUN, ZUMBIQA_SLICE(sheet), &size)) == ZUMBIQA_CALL_UNFINISHED)
        for (size_t worker = 0; worker < WORKERS; worker++)
            take_turn(length, worker);
    if (number != ZUMBIQA_ACCEPTED || fwrite(sheet, 1, size, stdout) != size || fflush(stdout) != 0)
        return 1;
    return 0;
}
