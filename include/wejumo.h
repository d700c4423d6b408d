/* Wejumo: a signal recorder's wave memory.
 *
 * Value changes become an image, an image is read back, and two are joined. Every function is proved to meet its contract in crates/interface,
 * which this header retells, for any numbers and any contents of the buffers, in any order of calls. The functions of the last part have one
 * duty more, said there. What is recorded and answered is defined in crates/interface_state/specs/ and crates/interface_answers/specs/ and the
 * definitions that they cite; docs/PROMISES.md leads there.
 *
 * What the caller owes in every call:
 *  - A buffer is a pointer and the number of its elements. The pointer is not null and is aligned for its type, also where the number is 0.
 *    So many elements can be read there and, where the pointer is not to const, written; they lie in one object that has values (memory
 *    that was never written is cleared first).
 *  - A buffer that is not const overlaps no other buffer of the call. Buffers to const may overlap each other.
 *  - While the call runs nobody else writes to a buffer of it, and nobody else reads one that is not const: no thread, no interrupt, no
 *    device.
 *  - The stack has room for the call; docs/ARCHITECTURE.md, 'Stack', says how much.
 *
 * What the caller owns: all memory, always. The library allocates nothing, has no variables of its own and keeps no pointer after a call, so
 * calls on different buffers may run at the same time. Structs cross by value; there is no bool and no enum among them, and every pattern
 * of the bits of their fields has a meaning. Bytes of a struct that belong to no field are not looked at and may be any after a call, so states
 * are compared field by field. The library needs `memset` and nothing else; it is for x86-64 Linux.
 *
 * Refusals: where `answer` is WEJUMO_REFUSED, `value` is the number of the refusal (below), all buffers and the state are as they were.
 */
#ifndef WEJUMO_H
#define WEJUMO_H

#include <stddef.h>
#include <stdint.h>

#ifdef __cplusplus
#define WEJUMO_ASSERT(fact) static_assert(fact, #fact)
extern "C" {
#else
#define WEJUMO_ASSERT(fact) _Static_assert(fact, #fact)
#endif

/* The kind of a signal as a number: 0 an event, 1 to 65,536 a vector's width, or one of these. Other numbers are widths that a start
 * refuses. */
#define WEJUMO_EVENT UINT32_C(0)
#define WEJUMO_REAL UINT32_C(0xFFFFFFFE)
#define WEJUMO_ABSENT UINT32_C(0xFFFFFFFF)

/* Two probes, 0 and 1, send times and changes to one recording, with one table of times: a time is held against the last one, and a change
 * falls at the last one, whoever sent that. Each time and change names its sender, and each signal's record the probe that sends its changes.
 * The image tells nothing of probes. */
#define WEJUMO_LAST_PROBE UINT32_C(1)

#define WEJUMO_MAX_SIGNALS UINT32_C(65536)
#define WEJUMO_MAX_WIDTH UINT32_C(65536)
#define WEJUMO_MIN_LIMIT UINT32_C(2)
#define WEJUMO_MAX_LIMIT UINT32_C(65535)
#define WEJUMO_MAX_IMAGE UINT32_C(1073741824)

/* Editions of the skip rule, one of which is chosen at a start. A time below the last one starts a skip of its sender: the changes that this
 * probe sends are counted, not recorded, until a time that it sends ends the skip. The other probe's skip and count stay as they are. The
 * image tells nothing of the edition. */
#define WEJUMO_EDITION_1 UINT32_C(1) /* only a time above the last one ends a skip */
#define WEJUMO_EDITION_2 UINT32_C(2) /* a time equal to the last one ends it too; no time is added */

/* A class: how many states a symbol can have. In an argument every number above 1 means WEJUMO_NINE, but for a claim. */
#define WEJUMO_TWO UINT32_C(0)
#define WEJUMO_FOUR UINT32_C(1)
#define WEJUMO_NINE UINT32_C(2)

/* Symbols, as the cursor and wejumo_entry_value write them, one a byte: 0 1 x z h u w l - are 0 to 8. */

/* What a call answers. */
#define WEJUMO_REFUSED UINT32_C(0)   /* value: the refusal's number */
#define WEJUMO_STARTED UINT32_C(1)
#define WEJUMO_TAKEN UINT32_C(2)
#define WEJUMO_SAME UINT32_C(3)
#define WEJUMO_BACK UINT32_C(4)
#define WEJUMO_RECORDED UINT32_C(5)
#define WEJUMO_SKIPPED UINT32_C(6)
#define WEJUMO_FINISHED UINT32_C(7)  /* value: the total bytes of the image */
#define WEJUMO_LOADED UINT32_C(8)    /* value: the number of kept entries */
#define WEJUMO_TABLE UINT32_C(9)     /* value: the length of the combined table */
#define WEJUMO_FOUND UINT32_C(10)    /* value: the entry's number */
#define WEJUMO_NOTHING UINT32_C(11)  /* no entry at or before the time */
#define WEJUMO_ENTRY UINT32_C(12)
#define WEJUMO_NO_ENTRY UINT32_C(13)
#define WEJUMO_JOINED UINT32_C(14)   /* value: the total bytes of the joined image */

/* Refusals. */
#define WEJUMO_BAD_START UINT32_C(1)      /* the start's numbers or buffers */
#define WEJUMO_CLOSED UINT32_C(2)
#define WEJUMO_BEFORE_TIME UINT32_C(3)    /* a change before any time */
#define WEJUMO_NO_SIGNAL UINT32_C(4)      /* a number at or above S, or an absent signal */
#define WEJUMO_WRONG_KIND UINT32_C(5)
#define WEJUMO_BAD_VALUE UINT32_C(6)
#define WEJUMO_WORK_FULL UINT32_C(7)
#define WEJUMO_IMAGE_FULL UINT32_C(8)     /* no room for a block to cut, or for a joined image */
#define WEJUMO_OUTPUT_SHORT UINT32_C(9)
#define WEJUMO_ALTERED UINT32_C(10)       /* state or memory was altered between calls */
#define WEJUMO_NO_IMAGE UINT32_C(11)      /* the opener does not accept */
#define WEJUMO_UNLIKE UINT32_C(14)        /* images to join differ in S, B or a kind */
#define WEJUMO_NO_BLOCK UINT32_C(15)      /* the first image to join has no block */
#define WEJUMO_OVERLAP UINT32_C(16)       /* the second image to join starts before the first ends */
#define WEJUMO_FOREIGN UINT32_C(18)       /* a sender that is no probe, or a signal whose record does not name the sender */

/* A recording between two calls. Before the first start it may have any values, as { 0 }. Flags are off at 0 and on at every other number; a
 * call that leaves a flag on hands back its number, and one that sets it hands back 1. */
typedef struct wejumo_state {
  uint32_t closed;  /* flag */
  uint32_t limit;   /* B: how many times a block holds at most */
  uint32_t signals; /* S */
  uint32_t held;    /* times in the table */
  uint64_t work;    /* used bytes of the work buffer */
  uint32_t image;   /* used bytes of the image buffer */
  uint32_t blocks;
  uint32_t skip;    /* flag: changes of probe 0 are skipped since a time that it sent went back */
  uint32_t skipped; /* how many of its changes were skipped since the start; it stays at its top */
  uint32_t edition; /* of the skip rule */
  uint32_t skip_1;  /* flag: as `skip`, of probe 1 */
  uint32_t skipped_1;
} wejumo_state;

WEJUMO_ASSERT(sizeof(size_t) == 8);
WEJUMO_ASSERT(sizeof(wejumo_state) == 56);
WEJUMO_ASSERT(offsetof(wejumo_state, closed) == 0);
WEJUMO_ASSERT(offsetof(wejumo_state, limit) == 4);
WEJUMO_ASSERT(offsetof(wejumo_state, signals) == 8);
WEJUMO_ASSERT(offsetof(wejumo_state, held) == 12);
WEJUMO_ASSERT(offsetof(wejumo_state, work) == 16);
WEJUMO_ASSERT(offsetof(wejumo_state, image) == 24);
WEJUMO_ASSERT(offsetof(wejumo_state, blocks) == 28);
WEJUMO_ASSERT(offsetof(wejumo_state, skip) == 32);
WEJUMO_ASSERT(offsetof(wejumo_state, skipped) == 36);
WEJUMO_ASSERT(offsetof(wejumo_state, edition) == 40);
WEJUMO_ASSERT(offsetof(wejumo_state, skip_1) == 44);
WEJUMO_ASSERT(offsetof(wejumo_state, skipped_1) == 48);

/* What a call of the recorder answers, and the state after it, which the caller hands to the next call. */
typedef struct wejumo_outcome {
  uint32_t answer;
  uint32_t value; /* 0 unless refused or finished */
  wejumo_state state;
} wejumo_outcome;

WEJUMO_ASSERT(sizeof(wejumo_outcome) == 64);
WEJUMO_ASSERT(offsetof(wejumo_outcome, answer) == 0);
WEJUMO_ASSERT(offsetof(wejumo_outcome, value) == 4);
WEJUMO_ASSERT(offsetof(wejumo_outcome, state) == 8);

/* ---- The recorder.
 *
 * records: one number for each signal, its kind's number + 2^32 * (probe + 256 * (3 * index + class)), the probe being 0 to 255. Before a start
 * kind and probe are enough (WEJUMO_RECORD, below; a kind's number alone is a record of probe 0): a start sets index and class to 0. `work` holds
 * the changes of the block that is being recorded, 8 bytes and the stream bytes each; `times` holds its times. The image is the first `value`
 * bytes of the image buffer after a finish. The same buffers go into each call. */

/* A probe above 255 is handed on as 255, which a start refuses like every other above 1. `probe` is evaluated twice. */
#define WEJUMO_RECORD(kind, probe) ((uint64_t)(kind) + (((uint64_t)(probe) < 255 ? (uint64_t)(probe) : 255) << 32))

WEJUMO_ASSERT(WEJUMO_RECORD(4, 0) == 4);
WEJUMO_ASSERT(WEJUMO_RECORD(WEJUMO_ABSENT, 1) == UINT64_C(0x1FFFFFFFF));
WEJUMO_ASSERT(WEJUMO_RECORD(1, 256) == WEJUMO_RECORD(1, 255));

/* Starts a recording of `signals` signals with at most `limit` times a block, by an edition of the skip rule. STARTED. Refused with 1: `limit`
 * outside its range or above times_length, `signals` over its top or not records_length, `edition` neither 1 nor 2, a record whose kind is a width
 * over its top or whose probe is neither 0 nor 1, an image buffer of fewer than 16 + 4 * signals bytes or over its top. */
wejumo_outcome wejumo_start(wejumo_state state, uint32_t limit, uint32_t signals, uint32_t edition,
                            uint64_t *records, size_t records_length,
                            const uint64_t *times, size_t times_length,
                            uint8_t *image, size_t image_length);

/* A time that a probe sends. TAKEN if it is the first or above the last, after a cut where the table is full, and ends the sender's skip; SAME ends
 * it in edition 2 alone; BACK starts it. Refused, tested in this order, with 2, 18 (no such sender), 10, 8. */
wejumo_outcome wejumo_time_change(wejumo_state state,
                                  uint64_t *records, size_t records_length,
                                  uint64_t *times, size_t times_length,
                                  const uint8_t *work, size_t work_length,
                                  uint8_t *image, size_t image_length,
                                  uint32_t sender, uint64_t time);

/* A value in VCD text that a probe sends. RECORDED, or SKIPPED during the sender's skip. Refused, as the other changes, tested in this order, with
 * 2, 18 (no such sender), 10, 3, and outside of that skip 4, 18 (the signal's record does not name the sender), 5, 6, 10, 7. */
wejumo_outcome wejumo_vcd_value_change(wejumo_state state,
                                       uint64_t *records, size_t records_length,
                                       const uint64_t *times, size_t times_length,
                                       uint8_t *work, size_t work_length,
                                       const uint8_t *image, size_t image_length,
                                       uint32_t sender, uint32_t signal,
                                       const uint8_t *value, size_t value_length);

/* Packed symbols, with the class that they claim; a claim above 2 is a bad value. */
wejumo_outcome wejumo_raw_value_change(wejumo_state state,
                                       uint64_t *records, size_t records_length,
                                       const uint64_t *times, size_t times_length,
                                       uint8_t *work, size_t work_length,
                                       const uint8_t *image, size_t image_length,
                                       uint32_t sender, uint32_t signal, uint32_t claim,
                                       const uint8_t *value, size_t value_length);

/* A real, by the 64 bits of its double, every pattern of which is kept. */
wejumo_outcome wejumo_real_change(wejumo_state state,
                                  uint64_t *records, size_t records_length,
                                  const uint64_t *times, size_t times_length,
                                  uint8_t *work, size_t work_length,
                                  const uint8_t *image, size_t image_length,
                                  uint32_t sender, uint32_t signal, uint64_t bits);

/* Cuts if any time is held, and closes; it has no sender. FINISHED; refused with 2, 10, 8. */
wejumo_outcome wejumo_finish(wejumo_state state,
                             uint64_t *records, size_t records_length,
                             uint64_t *times, size_t times_length,
                             const uint8_t *work, size_t work_length,
                             uint8_t *image, size_t image_length);

/* ---- Reading any bytes. Each call on an image opens it first. */

/* LOADED with the number of kept entries and the signal's class. */
typedef struct wejumo_load_answer {
  uint32_t answer;
  uint32_t value;
  uint32_t signal_class; /* 0 where refused */
} wejumo_load_answer;

WEJUMO_ASSERT(sizeof(wejumo_load_answer) == 12);
WEJUMO_ASSERT(offsetof(wejumo_load_answer, answer) == 0);
WEJUMO_ASSERT(offsetof(wejumo_load_answer, value) == 4);
WEJUMO_ASSERT(offsetof(wejumo_load_answer, signal_class) == 8);

/* TABLE with its length. */
typedef struct wejumo_table_answer {
  uint32_t answer;
  uint32_t value;
} wejumo_table_answer;

WEJUMO_ASSERT(sizeof(wejumo_table_answer) == 8);
WEJUMO_ASSERT(offsetof(wejumo_table_answer, answer) == 0);
WEJUMO_ASSERT(offsetof(wejumo_table_answer, value) == 4);

/* A part of the image: from + length is at most the image's length. */
typedef struct wejumo_part {
  size_t from;
  size_t length;
} wejumo_part;

WEJUMO_ASSERT(sizeof(wejumo_part) == 16);
WEJUMO_ASSERT(offsetof(wejumo_part, from) == 0);
WEJUMO_ASSERT(offsetof(wejumo_part, length) == 8);

/* The content of one entry. A vector's symbols stand at the start of the call's symbol buffer. */
#define WEJUMO_IS_EVENT UINT32_C(0)
#define WEJUMO_IS_VECTOR UINT32_C(1)
#define WEJUMO_IS_REAL UINT32_C(2)

typedef struct wejumo_content {
  uint32_t form;
  uint32_t value_class; /* a vector's own class, else 0 */
  uint64_t bits;        /* a real's bits, else 0 */
} wejumo_content;

WEJUMO_ASSERT(sizeof(wejumo_content) == 16);
WEJUMO_ASSERT(offsetof(wejumo_content, form) == 0);
WEJUMO_ASSERT(offsetof(wejumo_content, value_class) == 4);
WEJUMO_ASSERT(offsetof(wejumo_content, bits) == 8);

/* FOUND with the entry's number, time and content, or NOTHING: the signal has no entry at or before the time. All else is 0 where it is not
 * found, but for a refusal's number. */
typedef struct wejumo_cursor_answer {
  uint32_t answer;
  uint32_t value;
  uint64_t time;
  wejumo_content content;
} wejumo_cursor_answer;

WEJUMO_ASSERT(sizeof(wejumo_cursor_answer) == 32);
WEJUMO_ASSERT(offsetof(wejumo_cursor_answer, answer) == 0);
WEJUMO_ASSERT(offsetof(wejumo_cursor_answer, value) == 4);
WEJUMO_ASSERT(offsetof(wejumo_cursor_answer, time) == 8);
WEJUMO_ASSERT(offsetof(wejumo_cursor_answer, content) == 16);

/* ENTRY with its content, or NO_ENTRY: the bytes are no entry of such a signal. */
typedef struct wejumo_entry_answer {
  uint32_t answer;
  uint32_t value;
  wejumo_content content;
} wejumo_entry_answer;

WEJUMO_ASSERT(sizeof(wejumo_entry_answer) == 24);
WEJUMO_ASSERT(offsetof(wejumo_entry_answer, answer) == 0);
WEJUMO_ASSERT(offsetof(wejumo_entry_answer, value) == 4);
WEJUMO_ASSERT(offsetof(wejumo_entry_answer, content) == 8);

/* 1 where the bytes are an image, left by a recording or joined from images, else 0. */
uint32_t wejumo_open(const uint8_t *image, size_t image_length);

/* Writes the indices of a signal's kept entries (in the combined table) and their bytes, all of one length, to the starts of the outputs,
 * and nothing past them. One pass over its changes writes them where the outputs have room for as many entries as its streams can hold;
 * else one counts them before. Refused with 11, 4, 9. */
wejumo_load_answer wejumo_load(const uint8_t *image, size_t image_length, uint32_t signal,
                               uint32_t *index, size_t index_length,
                               uint8_t *bytes, size_t bytes_length);

/* Writes the combined table of all blocks' times to the start of out; a time that ends a block and begins the next stands there once. Refused
 * with 11, 9. */
wejumo_table_answer wejumo_table(const uint8_t *image, size_t image_length,
                                 uint64_t *out, size_t out_length);

/* The place of a signal's stream of a block in the image, after its class byte. At 0 and of length 0 where the opener refuses, the block
 * or the signal does not exist, or it has no changes there. Blocks are walked from the first to the one asked for. */
wejumo_part wejumo_stream(const uint8_t *image, size_t image_length, uint32_t block, uint32_t signal);

/* The last entry of a signal at or before a time. Before its first change, and without changes, NOTHING, and no symbol is written. Refused
 * with 11, 4, 9: the symbol buffer is shorter than a vector's width, even where there is NOTHING. */
wejumo_cursor_answer wejumo_cursor(const uint8_t *image, size_t image_length, uint32_t signal, uint64_t time,
                                   uint8_t *symbols, size_t symbols_length);

/* How many bytes each entry takes of a signal of a kind's number and a class. */
size_t wejumo_entry_length(uint32_t kind, uint32_t signal_class);

/* The bytes of one loaded entry of a signal of a kind's number and a class. Refused with 9. */
wejumo_entry_answer wejumo_entry_value(const uint8_t *bytes, size_t bytes_length, uint32_t kind, uint32_t signal_class,
                                       uint8_t *symbols, size_t symbols_length);

/* ---- Joining any bytes. Both images are opened first. */

/* JOINED with the total bytes of the image that was made. */
typedef struct wejumo_join_answer {
  uint32_t answer;
  uint32_t value;
} wejumo_join_answer;

WEJUMO_ASSERT(sizeof(wejumo_join_answer) == 8);
WEJUMO_ASSERT(offsetof(wejumo_join_answer, answer) == 0);
WEJUMO_ASSERT(offsetof(wejumo_join_answer, value) == 4);

/* Writes one image to the start of out, and nothing past it: the head of the first with the number of blocks of both and the new total, then
 * the blocks of the first and those of the second. It loads as one recording after the other, with repeats dropped between them too; a time
 * that ends the first and starts the second is one time. A second image without blocks gives the first. Refused, tested in this order, with
 * 11 for either image, 14, 15, 16, 8: out is shorter than the total, or the total is above WEJUMO_MAX_IMAGE. Three images, each
 * with a block, may be joined in either grouping, the first two first or the last two: where nothing is refused with 8, both give the same
 * bytes, or both are refused, each with 14 or 16. */
wejumo_join_answer wejumo_join(const uint8_t *first, size_t first_length,
                               const uint8_t *second, size_t second_length,
                               uint8_t *out, size_t out_length);

/* ---- For measuring. */

/* The sum of bytes, of which 64 bits are kept: a plain loop, against which bench/ holds the opener's speed. */
uint64_t wejumo_sum(const uint8_t *bytes, size_t bytes_length);

/* ---- Reading an image that was opened.
 *
 * One duty more: wejumo_open answered 1 for these bytes, and they are unchanged since. Nothing tests it again; with other bytes nothing is
 * promised: these functions may read or write outside of the buffers, or not return. Where the duty is met, load, table, stream and cursor
 * answer as their namesakes above. */

uint32_t wejumo_opened_signals(const uint8_t *image, size_t image_length);
uint32_t wejumo_opened_blocks(const uint8_t *image, size_t image_length);

/* The length of the combined table. */
uint32_t wejumo_opened_times(const uint8_t *image, size_t image_length);

/* The number of a signal's kind; WEJUMO_ABSENT past the signals too. */
uint32_t wejumo_opened_kind(const uint8_t *image, size_t image_length, uint32_t signal);

wejumo_load_answer wejumo_opened_load(const uint8_t *image, size_t image_length, uint32_t signal,
                                      uint32_t *index, size_t index_length,
                                      uint8_t *bytes, size_t bytes_length);
wejumo_table_answer wejumo_opened_table(const uint8_t *image, size_t image_length,
                                        uint64_t *out, size_t out_length);
wejumo_part wejumo_opened_stream(const uint8_t *image, size_t image_length, uint32_t block, uint32_t signal);
wejumo_cursor_answer wejumo_opened_cursor(const uint8_t *image, size_t image_length, uint32_t signal, uint64_t time,
                                          uint8_t *symbols, size_t symbols_length);

#ifdef __cplusplus
}
#endif

#endif
