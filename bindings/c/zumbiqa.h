/* The register as a library. Each function is proved to answer and to leave what a definition in crates/exports/specs says, for every value of
 * its arguments, and to end. What the proof asks of a caller in C:
 *
 * - A slice is two arguments: a pointer and the number of its elements. The pointer is aligned for its elements and valid for as many. It is
 *   not NULL, not even where the number is 0.
 * - Slices that a call may write (those without const) overlap no other slice of that call.
 * - All memory is the caller's. The library keeps nothing between calls, allocates nothing and has no state of its own. So different threads
 *   may use different runs at once, and one run is used by one thread at a time.
 * - A run is its head and six buffers, each of at least its fixed size (below), and the block that it was opened from. Between an opening and
 *   the last move of a run nothing else changes them; the block stays the same too. Then no answer is 20, and the results are those of
 *   document 01. A run that was changed is safe to use all the same: what is out of its range is refused by 20.
 *
 * A function answers 0 if it did what was asked, else the number of its refusal. A refused move, serial run or sheet changes nothing;
 * a refused opening leaves the head and all six buffers zero. */
#ifndef ZUMBIQA_H
#define ZUMBIQA_H

#include <stddef.h>
#include <stdint.h>

#ifdef __cplusplus
extern "C" {
#endif

/* An array as the two arguments of a slice. */
#define ZUMBIQA_SLICE(array) (array), sizeof(array) / sizeof((array)[0])

/* The fixed sizes, in elements. zumbiqa_size tells the same by the numbers of enum zumbiqa_size_of. */
#define ZUMBIQA_HEAD_SIZE 12     /* uint64_t */
#define ZUMBIQA_PLAN_SIZE 8192   /* uint64_t */
#define ZUMBIQA_KEYS_SIZE 2048   /* uint64_t */
#define ZUMBIQA_CELLS_SIZE 1024  /* int64_t */
#define ZUMBIQA_STATUS_SIZE 1024 /* uint64_t */
#define ZUMBIQA_SEATS_SIZE 128   /* uint64_t */
#define ZUMBIQA_FRAMES_SIZE 256  /* int64_t */
#define ZUMBIQA_MAX_SHEET 26628  /* bytes: an output of this size holds every sheet */
#define ZUMBIQA_MAX_BLOCK 65536  /* bytes: a longer block is refused by 1 */

enum zumbiqa_size_of {
    ZUMBIQA_SIZE_OF_HEAD = 0,
    ZUMBIQA_SIZE_OF_PLAN = 1,
    ZUMBIQA_SIZE_OF_KEYS = 2,
    ZUMBIQA_SIZE_OF_CELLS = 3,
    ZUMBIQA_SIZE_OF_STATUS = 4,
    ZUMBIQA_SIZE_OF_SEATS = 5,
    ZUMBIQA_SIZE_OF_FRAMES = 6,
    ZUMBIQA_SIZE_OF_SHEET = 7,
    ZUMBIQA_SIZE_OF_BLOCK = 8
};

/* The words of a head. The word ZUMBIQA_HEAD_HELD + w is the number of the call that worker w holds plus 1, or 0 for none. Words behind the
 * first twelve are zero after an opening, and no other function looks at them. */
enum zumbiqa_head_word {
    ZUMBIQA_HEAD_WORKERS = 0,
    ZUMBIQA_HEAD_CALLS = 1,
    ZUMBIQA_HEAD_CELLS = 2,
    ZUMBIQA_HEAD_FIRST_CALL = 3, /* the offset of the first call record */
    ZUMBIQA_HEAD_HELD = 4
};

/* The words of a call in the status: word k of call c is at ZUMBIQA_STATUS_WORDS * c + k. Outcome (0 to 7) and count (0 to 65,535) are
 * those of a finished call. The waiting count is the number of its earlier conflicting calls that are unfinished: while it is above 0, a
 * begin of the call is refused by 25. */
#define ZUMBIQA_STATUS_WORDS 4

enum zumbiqa_status_word {
    ZUMBIQA_STATUS_STATE = 0,
    ZUMBIQA_STATUS_OUTCOME = 1,
    ZUMBIQA_STATUS_COUNT = 2,
    ZUMBIQA_STATUS_WAITS = 3
};

enum zumbiqa_state {
    ZUMBIQA_WAITING = 0,
    ZUMBIQA_RUNNING = 1,
    ZUMBIQA_FINISHED = 2
};

/* How a finished call ended. From ZUMBIQA_THROWN on its cells were restored. */
enum zumbiqa_outcome {
    ZUMBIQA_ENDED = 0,
    ZUMBIQA_UNKNOWN_FUNCTION = 1,
    ZUMBIQA_VALUE_NOT_COVERED = 2,
    ZUMBIQA_THROWN = 3,
    ZUMBIQA_OUT_OF_RANGE = 4,
    ZUMBIQA_NOT_PAID = 5,
    ZUMBIQA_ZERO_DIVISOR = 6,
    ZUMBIQA_OUT_OF_FUEL = 7
};

/* What an opening answers. */
enum zumbiqa_opening {
    ZUMBIQA_OPENED = 0,
    ZUMBIQA_INPUT_TOO_LONG = 1,   /* input above 65,536 bytes */
    ZUMBIQA_MISSING = 2,          /* record or end missing or cut */
    ZUMBIQA_KIND = 3,             /* kind not 1 to 4, or falling */
    ZUMBIQA_LENGTH = 4,           /* length not the kind's */
    ZUMBIQA_FIELD = 5,            /* a field outside its range */
    ZUMBIQA_NOT_RISING = 6,       /* not rising */
    ZUMBIQA_BEYOND_LIMIT = 7,     /* a record beyond its kind's limit */
    ZUMBIQA_BEHIND = 8,           /* bytes after the end */
    ZUMBIQA_BALANCES = 9,         /* opening balances sum above 2^63 - 1 */
    ZUMBIQA_CODE = 10,            /* code breaks a rule */
    ZUMBIQA_CALL_KEYS = 11,       /* over 24 keys */
    ZUMBIQA_ALL_KEYS = 12,        /* over 1,024 keys */
    ZUMBIQA_WORKERS = 13,         /* workers not 1 to 8 */
    ZUMBIQA_BUFFERS = 20          /* the head or a buffer too short */
};

/* What a move, a serial run or a sheet answers. */
enum zumbiqa_answer {
    ZUMBIQA_ACCEPTED = 0,
    ZUMBIQA_DAMAGED = 20,            /* a slice too short, or a value outside its range */
    ZUMBIQA_NO_WORKER = 21,          /* no such worker */
    ZUMBIQA_NO_CALL = 22,            /* no such call */
    ZUMBIQA_WORKER_BUSY = 23,        /* worker holds a call */
    ZUMBIQA_NOT_WAITING = 24,        /* call not waiting */
    ZUMBIQA_EARLIER_UNFINISHED = 25, /* an earlier conflicting call unfinished */
    ZUMBIQA_WORKER_IDLE = 26,        /* worker holds none */
    ZUMBIQA_CALL_UNFINISHED = 27,    /* sheet wanted with a call unfinished */
    ZUMBIQA_SHEET_TOO_LONG = 28      /* sheet longer than the output */
};

/* The fixed size of a number of enum zumbiqa_size_of; 0 for any other number. */
uint64_t zumbiqa_size(size_t which);

/* Opens a block for 1 to 8 workers: every call waits and no worker holds one. The offset is the place of a refusal in the block; it is 0 where
 * the block is accepted. */
uint64_t zumbiqa_open(const uint8_t *block, size_t block_length,
                      size_t workers,
                      uint64_t *head, size_t head_length,
                      uint64_t *plan, size_t plan_length,
                      uint64_t *keys, size_t keys_length,
                      int64_t *cells, size_t cells_length,
                      uint64_t *status, size_t status_length,
                      uint64_t *seats, size_t seats_length,
                      int64_t *frames, size_t frames_length,
                      uint64_t *offset);

/* BEGIN(worker, call): the call runs on the worker, at its entry. */
uint64_t zumbiqa_begin(uint64_t *head, size_t head_length,
                       const uint64_t *plan, size_t plan_length,
                       const uint64_t *keys, size_t keys_length,
                       const int64_t *cells, size_t cells_length,
                       uint64_t *status, size_t status_length,
                       uint64_t *seats, size_t seats_length,
                       int64_t *frames, size_t frames_length,
                       size_t worker, size_t call);

/* STEP(worker): one step of the worker's call. */
uint64_t zumbiqa_step(const uint8_t *block, size_t block_length,
                      uint64_t *head, size_t head_length,
                      const uint64_t *plan, size_t plan_length,
                      const uint64_t *keys, size_t keys_length,
                      int64_t *cells, size_t cells_length,
                      uint64_t *status, size_t status_length,
                      uint64_t *seats, size_t seats_length,
                      int64_t *frames, size_t frames_length,
                      size_t worker);

/* CANCEL(worker): the cells that its call may write are restored, and the call waits again. */
uint64_t zumbiqa_cancel(uint64_t *head, size_t head_length,
                        const uint64_t *plan, size_t plan_length,
                        const uint64_t *keys, size_t keys_length,
                        int64_t *cells, size_t cells_length,
                        uint64_t *status, size_t status_length,
                        const uint64_t *seats, size_t seats_length,
                        const int64_t *frames, size_t frames_length,
                        size_t worker);

/* The serial run: calls 0, 1, .. each begun on worker 0 and stepped to its end. It answers 0, or 20 for a slice that is too short. It is meant
 * for a run as it was opened; on another one, what is refused on the way is left out. */
uint64_t zumbiqa_serial_run(const uint8_t *block, size_t block_length,
                            uint64_t *head, size_t head_length,
                            const uint64_t *plan, size_t plan_length,
                            const uint64_t *keys, size_t keys_length,
                            int64_t *cells, size_t cells_length,
                            uint64_t *status, size_t status_length,
                            uint64_t *seats, size_t seats_length,
                            int64_t *frames, size_t frames_length);

/* The closing sheet, written to the front of the output; sheet_length becomes that of the sheet, the offset behind its last record, and bytes
 * behind it are unchanged. A refused sheet leaves the output and sheet_length as they were. */
uint64_t zumbiqa_sheet(const uint64_t *head, size_t head_length,
                       const uint64_t *plan, size_t plan_length,
                       const uint64_t *keys, size_t keys_length,
                       const int64_t *cells, size_t cells_length,
                       const uint64_t *status, size_t status_length,
                       const uint64_t *seats, size_t seats_length,
                       const int64_t *frames, size_t frames_length,
                       uint8_t *output, size_t output_length,
                       uint64_t *sheet_length);

#ifdef __cplusplus
}
#endif

#endif
