/* Holds the header to the library: the sizes, the order of the arguments, and slices of every length. It is silent where all is well. */
#include <stdio.h>
#include <string.h>

#include "zumbiqa.h"

static int failures = 0;

#define EXPECT(wanted, found)                                                                          \
    do {                                                                                               \
        unsigned long long w = (wanted), f = (found);                                                  \
        if (w != f) {                                                                                  \
            fprintf(stderr, "%s:%d: %s is %llu and not %llu\n", __FILE__, __LINE__, #found, f, w);     \
            failures++;                                                                                \
        }                                                                                              \
    } while (0)

/* A block of an end alone, and one of a call of an unknown function. */
static const uint8_t none[] = {0, 0, 4, 0};
static const uint8_t one[] = {
    32, 0, 3, 0, 5, 0, 0, 128, 0, 0, 0, 0, 0, 0, 0, 0, 0, 0, 0, 0, 0, 0, 0, 0, 0, 0, 0, 0, 0, 0, 0, 0, 0, 0, 64, 0, 0, 0, 4, 0,
};
/* A block of a function that jumps to its own index for ever, and of a call of it with fuel 2. */
static const uint8_t loop[] = {
    12, 0, 1, 0, 0, 128, 0, 0, 14, 0, 0, 0, 0, 0, 0, 0,
    32, 0, 3, 0, 5, 0, 0, 128, 0, 0, 0, 0, 0, 0, 0, 0, 0, 0, 0, 0, 0, 0, 0, 0, 0, 0, 0, 0, 0, 0, 0, 0, 0, 0, 2, 0, 0, 0, 4, 0,
};

/* A block of a function without code, and of two calls of it by one sender with value 1: the second waits for the first. */
static const uint8_t two[] = {
    4, 0, 1, 0, 0, 128, 0, 0,
    32, 0, 3, 0, 5, 0, 0, 128, 0, 0, 1, 0, 0, 0, 0, 0, 0, 0, 0, 0, 0, 0, 0, 0, 0, 0, 0, 0, 0, 0, 0, 0, 0, 0, 64, 0,
    32, 0, 3, 0, 5, 0, 0, 128, 0, 0, 1, 0, 0, 0, 0, 0, 0, 0, 0, 0, 0, 0, 0, 0, 0, 0, 0, 0, 0, 0, 0, 0, 0, 0, 64, 0, 0, 0, 4, 0,
};

static uint64_t head[ZUMBIQA_HEAD_SIZE + 1], plan[ZUMBIQA_PLAN_SIZE], keys[ZUMBIQA_KEYS_SIZE];
static uint64_t status[ZUMBIQA_STATUS_SIZE], seats[ZUMBIQA_SEATS_SIZE];
static int64_t cells[ZUMBIQA_CELLS_SIZE], frames[ZUMBIQA_FRAMES_SIZE];
static uint8_t sheet[ZUMBIQA_MAX_SHEET];

#define BUFFERS                                                                                        \
    ZUMBIQA_SLICE(plan), ZUMBIQA_SLICE(keys), ZUMBIQA_SLICE(cells), ZUMBIQA_SLICE(status),             \
        ZUMBIQA_SLICE(seats), ZUMBIQA_SLICE(frames)
#define RUN ZUMBIQA_SLICE(head), BUFFERS

static void test_sizes(void) {
    EXPECT(ZUMBIQA_HEAD_SIZE, zumbiqa_size(ZUMBIQA_SIZE_OF_HEAD));
    EXPECT(ZUMBIQA_PLAN_SIZE, zumbiqa_size(ZUMBIQA_SIZE_OF_PLAN));
    EXPECT(ZUMBIQA_KEYS_SIZE, zumbiqa_size(ZUMBIQA_SIZE_OF_KEYS));
    EXPECT(ZUMBIQA_CELLS_SIZE, zumbiqa_size(ZUMBIQA_SIZE_OF_CELLS));
    EXPECT(ZUMBIQA_STATUS_SIZE, zumbiqa_size(ZUMBIQA_SIZE_OF_STATUS));
    EXPECT(ZUMBIQA_SEATS_SIZE, zumbiqa_size(ZUMBIQA_SIZE_OF_SEATS));
    EXPECT(ZUMBIQA_FRAMES_SIZE, zumbiqa_size(ZUMBIQA_SIZE_OF_FRAMES));
    EXPECT(ZUMBIQA_MAX_SHEET, zumbiqa_size(ZUMBIQA_SIZE_OF_SHEET));
    EXPECT(ZUMBIQA_MAX_BLOCK, zumbiqa_size(ZUMBIQA_SIZE_OF_BLOCK));
    EXPECT(0, zumbiqa_size(9));
    EXPECT(0, zumbiqa_size(SIZE_MAX));
}

/* The sheet of no calls is the end alone; an output of no bytes is refused, and the length is as it was. */
static void test_no_calls(void) {
    uint64_t offset = 7, length = 7;
    EXPECT(ZUMBIQA_OPENED, zumbiqa_open(ZUMBIQA_SLICE(none), 8, RUN, &offset));
    EXPECT(0, offset);
    EXPECT(8, head[ZUMBIQA_HEAD_WORKERS]);
    EXPECT(0, head[ZUMBIQA_HEAD_CALLS]);
    EXPECT(ZUMBIQA_SHEET_TOO_LONG, zumbiqa_sheet(RUN, sheet, 0, &length));
    EXPECT(7, length);
    EXPECT(ZUMBIQA_ACCEPTED, zumbiqa_sheet(RUN, sheet, sizeof none, &length));
    EXPECT(sizeof none, length);
    EXPECT(0, memcmp(sheet, none, sizeof none));
}

/* A call of an unknown function: begun, cancelled, begun again, and ended by its one step with outcome 1. */
static void test_moves(void) {
    uint64_t offset = 7, length = 7;
    EXPECT(ZUMBIQA_OPENED, zumbiqa_open(ZUMBIQA_SLICE(one), 2, RUN, &offset));
    EXPECT(ZUMBIQA_NO_WORKER, zumbiqa_begin(RUN, 2, 0));
    EXPECT(ZUMBIQA_NO_CALL, zumbiqa_begin(RUN, 1, 1));
    EXPECT(ZUMBIQA_ACCEPTED, zumbiqa_begin(RUN, 1, 0));
    EXPECT(1, head[ZUMBIQA_HEAD_HELD + 1]);
    EXPECT(ZUMBIQA_RUNNING, status[ZUMBIQA_STATUS_STATE]);
    EXPECT(ZUMBIQA_WORKER_BUSY, zumbiqa_begin(RUN, 1, 0));
    EXPECT(ZUMBIQA_NOT_WAITING, zumbiqa_begin(RUN, 0, 0));
    EXPECT(ZUMBIQA_CALL_UNFINISHED, zumbiqa_sheet(RUN, ZUMBIQA_SLICE(sheet), &length));
    EXPECT(7, length);
    EXPECT(ZUMBIQA_ACCEPTED, zumbiqa_cancel(RUN, 1));
    EXPECT(ZUMBIQA_WORKER_IDLE, zumbiqa_cancel(RUN, 1));
    EXPECT(ZUMBIQA_ACCEPTED, zumbiqa_begin(RUN, 0, 0));
    EXPECT(ZUMBIQA_ACCEPTED, zumbiqa_step(ZUMBIQA_SLICE(one), RUN, 0));
    EXPECT(ZUMBIQA_WORKER_IDLE, zumbiqa_step(ZUMBIQA_SLICE(one), RUN, 0));
    EXPECT(ZUMBIQA_FINISHED, status[ZUMBIQA_STATUS_STATE]);
    EXPECT(ZUMBIQA_UNKNOWN_FUNCTION, status[ZUMBIQA_STATUS_OUTCOME]);
    EXPECT(ZUMBIQA_ACCEPTED, zumbiqa_sheet(RUN, ZUMBIQA_SLICE(sheet), &length));
    EXPECT(12, length);
}

/* A call that loops takes its entry, as many steps as it has fuel, and one that ends it with outcome 7. */
static void test_fuel(void) {
    uint64_t offset = 7;
    EXPECT(ZUMBIQA_OPENED, zumbiqa_open(ZUMBIQA_SLICE(loop), 1, RUN, &offset));
    EXPECT(ZUMBIQA_ACCEPTED, zumbiqa_begin(RUN, 0, 0));
    for (int step = 0; step < 4; step++) {
        EXPECT(ZUMBIQA_RUNNING, status[ZUMBIQA_STATUS_STATE]);
        EXPECT(ZUMBIQA_ACCEPTED, zumbiqa_step(ZUMBIQA_SLICE(loop), RUN, 0));
    }
    EXPECT(ZUMBIQA_FINISHED, status[ZUMBIQA_STATUS_STATE]);
    EXPECT(ZUMBIQA_OUT_OF_FUEL, status[ZUMBIQA_STATUS_OUTCOME]);
    EXPECT(2, status[ZUMBIQA_STATUS_COUNT]);
}

/* The word of the status that an enum names, of a call. */
static uint64_t status_of(size_t call, enum zumbiqa_status_word word) {
    return status[ZUMBIQA_STATUS_WORDS * call + word];
}

/* A call waits for an earlier one by its waiting count, which the end of that one lowers. */
static void test_waits(void) {
    uint64_t offset = 7;
    EXPECT(ZUMBIQA_OPENED, zumbiqa_open(ZUMBIQA_SLICE(two), 2, RUN, &offset));
    EXPECT(0, status_of(0, ZUMBIQA_STATUS_WAITS));
    EXPECT(1, status_of(1, ZUMBIQA_STATUS_WAITS));
    EXPECT(ZUMBIQA_EARLIER_UNFINISHED, zumbiqa_begin(RUN, 1, 1));
    EXPECT(ZUMBIQA_ACCEPTED, zumbiqa_begin(RUN, 0, 0));
    EXPECT(1, status_of(1, ZUMBIQA_STATUS_WAITS));
    EXPECT(ZUMBIQA_ACCEPTED, zumbiqa_step(ZUMBIQA_SLICE(two), RUN, 0));
    EXPECT(ZUMBIQA_FINISHED, status_of(0, ZUMBIQA_STATUS_STATE));
    EXPECT(ZUMBIQA_VALUE_NOT_COVERED, status_of(0, ZUMBIQA_STATUS_OUTCOME));
    EXPECT(0, status_of(1, ZUMBIQA_STATUS_WAITS));
    EXPECT(ZUMBIQA_ACCEPTED, zumbiqa_begin(RUN, 1, 1));
    EXPECT(ZUMBIQA_RUNNING, status_of(1, ZUMBIQA_STATUS_STATE));
}

/* The serial run ends the call of an unknown function. */
static void test_serial_run(void) {
    uint64_t offset = 7;
    EXPECT(ZUMBIQA_OPENED, zumbiqa_open(ZUMBIQA_SLICE(one), 1, RUN, &offset));
    EXPECT(ZUMBIQA_ACCEPTED, zumbiqa_serial_run(ZUMBIQA_SLICE(one), RUN));
    EXPECT(ZUMBIQA_FINISHED, status[ZUMBIQA_STATUS_STATE]);
}

/* A head of every length but a whole one is refused by 20, and left as it was by all but an opening. */
static void test_short_heads(void) {
    uint64_t offset, length = 7;
    for (size_t words = 0; words < ZUMBIQA_HEAD_SIZE; words++) {
        memset(head, 1, sizeof head);
        EXPECT(ZUMBIQA_DAMAGED, zumbiqa_begin(head, words, BUFFERS, 0, 0));
        EXPECT(ZUMBIQA_DAMAGED, zumbiqa_step(ZUMBIQA_SLICE(one), head, words, BUFFERS, 0));
        EXPECT(ZUMBIQA_DAMAGED, zumbiqa_cancel(head, words, BUFFERS, 0));
        EXPECT(ZUMBIQA_DAMAGED, zumbiqa_serial_run(ZUMBIQA_SLICE(one), head, words, BUFFERS));
        EXPECT(ZUMBIQA_DAMAGED, zumbiqa_sheet(head, words, BUFFERS, ZUMBIQA_SLICE(sheet), &length));
        EXPECT(7, length);
        for (size_t k = 0; k <= ZUMBIQA_HEAD_SIZE; k++)
            EXPECT(0x0101010101010101, head[k]);
        offset = 7;
        EXPECT(ZUMBIQA_BUFFERS, zumbiqa_open(ZUMBIQA_SLICE(one), 1, head, words, BUFFERS, &offset));
        EXPECT(0, offset);
        for (size_t k = 0; k <= ZUMBIQA_HEAD_SIZE; k++)
            EXPECT(k < words ? 0 : 0x0101010101010101, head[k]);
    }
}

int main(void) {
    test_sizes();
    test_no_calls();
    test_moves();
    test_fuel();
    test_waits();
    test_serial_run();
    test_short_heads();
    return failures != 0;
}
