/* How many bytes of stack each exported call uses at most, on inputs that reach its deepest paths: one line for each, its name and the number.
 *
 * A call runs on a stack of its own that is filled with a pattern; what it used is what no longer has the pattern, from the top down, so with
 * the frame of a small caller and the arguments that it pushes. Two patterns are used, as a call may write one of them itself. */
#define _XOPEN_SOURCE 700
#include "wejumo.h"

#include <stdio.h>
#include <stdlib.h>
#include <string.h>
#include <ucontext.h>

enum { STACK = 64 * 1024, SIGNALS = 65536, LIMIT = 1100, TIMES = 3400, ALL_TIMES = 2 * TIMES - 1, BLOCKS = 8 };
enum { WORK = 4 << 20, IMAGE = 8 << 20, OUT = 4 << 20 };

/* All arguments, and the last answers. */
static wejumo_state state;
static uint32_t limit = LIMIT, edition, sender, signal_number, claim, block, kind, class_number;
static uint64_t time_now, bits;
static uint64_t records[SIGNALS], times[LIMIT], table[ALL_TIMES];
static uint8_t work[WORK], first[IMAGE], second[IMAGE], image[IMAGE], bytes[OUT], symbols[SIGNALS], value[SIGNALS + 8];
static uint32_t indices[OUT];
static size_t signals = SIGNALS, first_length, second_length, image_length = IMAGE, value_length;
static wejumo_outcome outcome;
static wejumo_load_answer loaded;
static wejumo_cursor_answer found;
static wejumo_entry_answer entry;
static wejumo_table_answer tabled;
static wejumo_join_answer joined;
static wejumo_part part;
static uint32_t number;
static size_t length;
static uint64_t total;

static uint8_t stack[STACK] __attribute__((aligned(4096)));
static ucontext_t here, there;

#define CALL(name, statement)                            \
  static size_t used_##name;                              \
  static __attribute__((noinline)) void do_##name(void) { \
    statement;                                            \
  }

#define LENT records, signals, times, LIMIT, work, WORK, image, IMAGE

CALL(wejumo_start, outcome = wejumo_start(state, limit, (uint32_t)signals, edition, records, signals, times, LIMIT, image, IMAGE))
CALL(wejumo_time_change, outcome = wejumo_time_change(state, LENT, sender, time_now))
CALL(wejumo_vcd_value_change, outcome = wejumo_vcd_value_change(state, LENT, sender, signal_number, value, value_length))
CALL(wejumo_raw_value_change, outcome = wejumo_raw_value_change(state, LENT, sender, signal_number, claim, value, value_length))
CALL(wejumo_real_change, outcome = wejumo_real_change(state, LENT, sender, signal_number, bits))
CALL(wejumo_finish, outcome = wejumo_finish(state, LENT))
CALL(wejumo_open, number = wejumo_open(image, image_length))
CALL(wejumo_load, loaded = wejumo_load(image, image_length, signal_number, indices, OUT, bytes, OUT))
CALL(wejumo_table, tabled = wejumo_table(image, image_length, table, ALL_TIMES))
CALL(wejumo_stream, part = wejumo_stream(image, image_length, block, signal_number))
CALL(wejumo_cursor, found = wejumo_cursor(image, image_length, signal_number, time_now, symbols, SIGNALS))
CALL(wejumo_entry_length, length = wejumo_entry_length(kind, class_number))
CALL(wejumo_entry_value, entry = wejumo_entry_value(bytes, length, kind, class_number, symbols, SIGNALS))
CALL(wejumo_join, joined = wejumo_join(first, first_length, second, second_length, image, IMAGE))
CALL(wejumo_sum, total = wejumo_sum(image, image_length))
CALL(wejumo_opened_signals, number = wejumo_opened_signals(image, image_length))
CALL(wejumo_opened_blocks, number = wejumo_opened_blocks(image, image_length))
CALL(wejumo_opened_times, number = wejumo_opened_times(image, image_length))
CALL(wejumo_opened_kind, number = wejumo_opened_kind(image, image_length, signal_number))
CALL(wejumo_opened_load, loaded = wejumo_opened_load(image, image_length, signal_number, indices, OUT, bytes, OUT))
CALL(wejumo_opened_table, tabled = wejumo_opened_table(image, image_length, table, ALL_TIMES))
CALL(wejumo_opened_stream, part = wejumo_opened_stream(image, image_length, block, signal_number))
CALL(wejumo_opened_cursor, found = wejumo_opened_cursor(image, image_length, signal_number, time_now, symbols, SIGNALS))

/* Runs a call on the filled stack, and keeps the largest use. */
static void measure_with(int pattern, void (*call)(void), size_t *used) {
  memset(stack, pattern, STACK);
  getcontext(&there);
  there.uc_stack.ss_sp = stack;
  there.uc_stack.ss_size = STACK;
  there.uc_link = &here;
  makecontext(&there, call, 0);
  swapcontext(&here, &there);
  size_t low = 0;
  while (low < STACK && stack[low] == pattern) low++;
  if (low < 4096) {
    printf("the stack of the test is too small\n");
    exit(1);
  }
  if (*used < STACK - low) *used = STACK - low;
}

/* A call that only reads answers the same twice; one of the recorder is made once, with the patterns in turn. */
#define MEASURE(name) (measure_with(0xA5, do_##name, &used_##name), measure_with(0x5C, do_##name, &used_##name))
#define RECORDER(name, wanted)                                           \
  (measure_with(turn++ % 2 ? 0xA5 : 0x5C, do_##name, &used_##name), \
   state = outcome.state, want(#name, outcome.answer, wanted))

static unsigned turn;

static void want(const char *name, uint32_t answer, uint32_t wanted) {
  if (answer != wanted) {
    printf("%s answered %u, not %u\n", name, answer, wanted);
    exit(1);
  }
}

/* Values that are shorter, as long and longer than the width, of each class, and bad ones, by the refusals that they meet. */
static void change(uint32_t signal, const char *symbols_of_value, size_t width, uint32_t wanted) {
  signal_number = signal;
  value_length = width;
  for (size_t i = 0; i < width; i++) value[i] = (uint8_t)symbols_of_value[i % strlen(symbols_of_value)];
  RECORDER(wejumo_vcd_value_change, wanted);
}

static void raw(uint32_t signal, uint32_t of, uint8_t byte, size_t size, uint32_t wanted) {
  signal_number = signal;
  claim = of;
  value_length = size;
  memset(value, byte, size);
  RECORDER(wejumo_raw_value_change, wanted);
}

static void changes(uint64_t time) {
  change(0, "", 0, WEJUMO_RECORDED);
  change(0, "1", 2, WEJUMO_REFUSED);
  change(1, "b1-", 3, WEJUMO_RECORDED);
  change(2, time % 2 ? "1x" : "x", 7, WEJUMO_RECORDED);
  change(3, time % 2 ? "01" : "0-x", 65536, WEJUMO_RECORDED);
  change(3, "x", 1, WEJUMO_RECORDED);
  change(3, "q", 65536, WEJUMO_REFUSED);
  change(3, "1", 65537 + 3, WEJUMO_REFUSED);
  change(4, "1", 1, WEJUMO_REFUSED);
  raw(1, 2, 0x08, 1, WEJUMO_RECORDED);
  raw(2, 0, 0x55, 1, WEJUMO_RECORDED);
  raw(3, 2, time % 2 ? 0x11 : 0x86, 32768, WEJUMO_RECORDED); /* written in a lower class, and in its own */
  raw(3, 1, 0xE4, 16384, WEJUMO_RECORDED);
  raw(3, 0, 0xC3, 8192, WEJUMO_RECORDED);
  raw(3, 2, 0x99, 32768, WEJUMO_REFUSED);
  raw(0, 0, 0, 0, WEJUMO_REFUSED);
  signal_number = 4;
  bits = 0x7FF0000000000001 + time;
  RECORDER(wejumo_real_change, WEJUMO_RECORDED);
  signal_number = 0;
  RECORDER(wejumo_real_change, WEJUMO_REFUSED);
}

/* Changes of a sender that is no probe, or that no record names. */
static void foreign(uint32_t by) {
  uint32_t own = sender;
  sender = by;
  change(3, "1", 1, WEJUMO_REFUSED);
  raw(1, 2, 0x08, 1, WEJUMO_REFUSED);
  signal_number = 4;
  RECORDER(wejumo_real_change, WEJUMO_REFUSED);
  sender = own;
}

/* S at its top, several blocks, changes of every kind at both ends of each, so that stream numbers have up to three bytes. The last signal but
 * one is absent. One probe sends all. The image goes to `to`; its length is answered. */
static size_t record(uint32_t by, uint32_t probe, uint64_t from, uint8_t *to) {
  static const uint32_t kinds[] = {WEJUMO_EVENT, 1, 7, 65536, WEJUMO_REAL};
  for (size_t i = 0; i < SIGNALS; i++) {
    records[i] = WEJUMO_RECORD(i < 5 ? kinds[i] : i == SIGNALS - 2 ? WEJUMO_ABSENT : 8, probe);
  }
  edition = by;
  RECORDER(wejumo_start, WEJUMO_STARTED);
  sender = WEJUMO_LAST_PROBE + 1;
  RECORDER(wejumo_time_change, WEJUMO_REFUSED);
  sender = probe;
  signal_number = 0;
  RECORDER(wejumo_real_change, WEJUMO_REFUSED);
  for (uint64_t i = 1; i <= TIMES; i++) {
    time_now = from + i;
    RECORDER(wejumo_time_change, WEJUMO_TAKEN);
    if (i % (LIMIT - 1) > 2) continue;
    changes(i);
    foreign(WEJUMO_LAST_PROBE + 1);
    foreign(WEJUMO_LAST_PROBE - probe);
    change(SIGNALS - 1, "x0", 8, WEJUMO_RECORDED);
  }
  time_now = from;
  RECORDER(wejumo_time_change, WEJUMO_BACK);
  change(3, "1", 1, WEJUMO_SKIPPED);
  time_now = from + TIMES;
  RECORDER(wejumo_time_change, WEJUMO_SAME);
  change(3, "1", 1, edition == WEJUMO_EDITION_1 ? WEJUMO_SKIPPED : WEJUMO_RECORDED);
  RECORDER(wejumo_finish, WEJUMO_FINISHED);
  size_t total_bytes = outcome.value;
  RECORDER(wejumo_finish, WEJUMO_REFUSED);
  memcpy(to, image, total_bytes);
  return total_bytes;
}

/* Two recordings that share a time, one by each edition and probe, and the image that both make, which is read below. */
static void join_both(void) {
  first_length = record(WEJUMO_EDITION_1, 0, 0, first);
  second_length = record(WEJUMO_EDITION_2, 1, TIMES - 1, second);
  MEASURE(wejumo_join);
  want("wejumo_join", joined.answer, WEJUMO_JOINED);
  image_length = joined.value;
}

static void read_all(void) {
  MEASURE(wejumo_open);
  want("wejumo_open", number, 1);
  MEASURE(wejumo_opened_signals);
  MEASURE(wejumo_opened_blocks);
  want("wejumo_opened_blocks", number, BLOCKS);
  MEASURE(wejumo_opened_times);
  MEASURE(wejumo_table);
  MEASURE(wejumo_opened_table);
  want("wejumo_opened_table", tabled.value, ALL_TIMES);
  static const uint32_t read[] = {0, 1, 2, 3, 4, 5, SIGNALS - 2, SIGNALS - 1, SIGNALS};
  for (size_t i = 0; i < sizeof read / sizeof read[0]; i++) {
    signal_number = read[i];
    uint32_t wanted = signal_number < SIGNALS && signal_number != SIGNALS - 2;
    MEASURE(wejumo_opened_kind);
    kind = number;
    MEASURE(wejumo_load);
    MEASURE(wejumo_opened_load);
    want("wejumo_opened_load", loaded.answer, wanted ? WEJUMO_LOADED : WEJUMO_REFUSED);
    class_number = loaded.signal_class;
    MEASURE(wejumo_entry_length);
    MEASURE(wejumo_entry_value);
    MEASURE(wejumo_sum);
    for (block = 0; block <= BLOCKS; block++) {
      MEASURE(wejumo_stream);
      MEASURE(wejumo_opened_stream);
    }
    for (time_now = 0; time_now < ALL_TIMES + 500; time_now += 500) {
      MEASURE(wejumo_cursor);
      MEASURE(wejumo_opened_cursor);
    }
  }
}

/* Entries of every class and of bytes that are none. */
static void entries(void) {
  static const uint32_t kinds[] = {0, 1, 2, 3, 4, 65535, 65536, WEJUMO_REAL, WEJUMO_ABSENT};
  for (size_t i = 0; i < sizeof kinds / sizeof kinds[0]; i++) {
    for (uint32_t of = 0; of < 4; of++) {
      for (unsigned byte = 0; byte < 256; byte += 5) {
        kind = kinds[i];
        class_number = of;
        length = wejumo_entry_length(kind, of);
        memset(bytes, (int)byte, length);
        MEASURE(wejumo_entry_value);
      }
    }
  }
}

/* Images that the opener refuses deep in a stream: at numbers of many bytes. */
static void damaged(void) {
  block = BLOCKS / 2; /* the first of the second image, whose blocks end both */
  signal_number = SIGNALS - 1;
  MEASURE(wejumo_opened_stream);
  uint8_t *at = image + part.from, *same = second + second_length - (image_length - part.from);
  for (size_t n = 1; n < 7; n++) {
    memset(at, 0xFF, n);
    at[n] = 0x01;
    memcpy(same, at, n + 1);
    MEASURE(wejumo_open);
    want("wejumo_open", number, 0);
    MEASURE(wejumo_load);
    MEASURE(wejumo_table);
    MEASURE(wejumo_stream);
    MEASURE(wejumo_cursor);
    MEASURE(wejumo_join);
    want("wejumo_join", joined.value, WEJUMO_NO_IMAGE);
  }
}

#define PRINT(name) printf(#name " %zu\n", used_##name)

int main(void) {
  join_both();
  read_all();
  entries();
  damaged();
  PRINT(wejumo_start);
  PRINT(wejumo_time_change);
  PRINT(wejumo_vcd_value_change);
  PRINT(wejumo_raw_value_change);
  PRINT(wejumo_real_change);
  PRINT(wejumo_finish);
  PRINT(wejumo_open);
  PRINT(wejumo_load);
  PRINT(wejumo_table);
  PRINT(wejumo_stream);
  PRINT(wejumo_cursor);
  PRINT(wejumo_entry_length);
  PRINT(wejumo_entry_value);
  PRINT(wejumo_join);
  PRINT(wejumo_sum);
  PRINT(wejumo_opened_signals);
  PRINT(wejumo_opened_blocks);
  PRINT(wejumo_opened_times);
  PRINT(wejumo_opened_kind);
  PRINT(wejumo_opened_load);
  PRINT(wejumo_opened_table);
  PRINT(wejumo_opened_stream);
  PRINT(wejumo_opened_cursor);
  return 0;
}
