/* Records a signal of each probe, opens the image, and lists it: the times, and one loaded signal. Then the unit starts anew, and the second
 * recording is joined to the first. */
#include "wejumo.h"

#include <stdio.h>
#include <string.h>

enum { LIMIT = 4, SIGNALS = 2, WORK = 256, IMAGE = 256, ENTRIES = 16 };

/* All that a recording needs, lent to each call. */
static struct {
  wejumo_state state;
  uint64_t records[SIGNALS];
  uint64_t times[LIMIT];
  uint8_t work[WORK];
  uint8_t image[IMAGE];
} rec = {.records = {WEJUMO_RECORD(1, 0), WEJUMO_RECORD(4, 1)}}; /* width and probe */

/* Keeps the state; every answer is printed. */
static uint32_t keep(const char *call, wejumo_outcome done) {
  rec.state = done.state;
  printf("%s: answer %u value %u\n", call, done.answer, done.value);
  return done.value;
}

static void at(uint32_t sender, uint64_t time) {
  keep("time", wejumo_time_change(rec.state, rec.records, SIGNALS, rec.times, LIMIT, rec.work, WORK, rec.image, IMAGE, sender, time));
}

/* A signal has the number of the probe that sends its changes. */
static void change(uint32_t signal, const char *text) {
  keep("change", wejumo_vcd_value_change(rec.state, rec.records, SIGNALS, rec.times, LIMIT, rec.work, WORK, rec.image, IMAGE,
                                         signal, signal, (const uint8_t *)text, strlen(text)));
}

/* Both probes send at times 10 and 20, but the clock of probe 0 slips at the end: its last change is skipped, that of probe 1 is not. */
static uint32_t record(void) {
  keep("start", wejumo_start(rec.state, LIMIT, SIGNALS, WEJUMO_EDITION_1, rec.records, SIGNALS, rec.times, LIMIT, rec.image, IMAGE));
  at(0, 10);
  change(0, "1");
  change(1, "b1x");
  at(1, 20);
  at(0, 15);
  change(0, "0");
  change(1, "b0001");
  printf("skipped of probe 0: %u, of probe 1: %u\n", rec.state.skipped, rec.state.skipped_1);
  return keep("finish", wejumo_finish(rec.state, rec.records, SIGNALS, rec.times, LIMIT, rec.work, WORK, rec.image, IMAGE));
}

/* After a restart: it begins at the time that ended the first, with a value that signal 1 has already. */
static uint32_t record_again(void) {
  keep("start", wejumo_start(rec.state, LIMIT, SIGNALS, WEJUMO_EDITION_1, rec.records, SIGNALS, rec.times, LIMIT, rec.image, IMAGE));
  at(1, 20);
  change(1, "b0001");
  at(0, 35);
  change(1, "bz");
  return keep("finish", wejumo_finish(rec.state, rec.records, SIGNALS, rec.times, LIMIT, rec.work, WORK, rec.image, IMAGE));
}

/* An image that was opened. */
static void list_times(const uint8_t *image, size_t length) {
  uint64_t times[ENTRIES];
  wejumo_table_answer table = wejumo_opened_table(image, length, times, ENTRIES);
  if (table.answer != WEJUMO_TABLE) {
    printf("refused %u\n", table.value);
    return;
  }
  for (uint32_t i = 0; i < table.value; i++) {
    printf("time %u %llu\n", i, (unsigned long long)times[i]);
  }
}

static void list_signal(const uint8_t *image, size_t length, uint32_t signal) {
  uint32_t index[ENTRIES];
  uint8_t bytes[ENTRIES * 4];
  uint8_t symbols[4];
  memset(bytes, 0, sizeof bytes);
  memset(index, 0, sizeof index);
  memset(symbols, 0, sizeof symbols);
  uint32_t kind = wejumo_opened_kind(image, length, signal);
  wejumo_load_answer loaded = wejumo_opened_load(image, length, signal, index, ENTRIES, bytes, sizeof bytes);
  if (loaded.answer != WEJUMO_LOADED || kind > sizeof symbols) {
    printf("signal %u: refused %u\n", signal, loaded.value);
    return;
  }
  printf("signal %u width %u class %u entries %u\n", signal, kind, loaded.signal_class, loaded.value);
  size_t step = wejumo_entry_length(kind, loaded.signal_class);
  for (uint32_t i = 0; i < loaded.value; i++) {
    wejumo_entry_answer entry = wejumo_entry_value(bytes + i * step, step, kind, loaded.signal_class, symbols, sizeof symbols);
    printf("%u ", index[i]);
    for (uint32_t k = 0; entry.answer == WEJUMO_ENTRY && k < kind; k++) {
      putchar("01xzhuwl-"[symbols[k]]);
    }
    printf(" class %u\n", entry.content.value_class);
  }
}

static void list(const uint8_t *image, size_t length) {
  printf("signals %u blocks %u\n", wejumo_opened_signals(image, length), wejumo_opened_blocks(image, length));
  list_times(image, length);
  list_signal(image, length, 1);
}

/* The first image and the one that was recorded after it. */
static int join(const uint8_t *first, size_t first_length) {
  uint8_t both[2 * IMAGE] = {0};
  uint32_t again = record_again();
  wejumo_join_answer joined = wejumo_join(first, first_length, rec.image, again, both, sizeof both);
  printf("join: answer %u value %u\n", joined.answer, joined.value);
  if (joined.answer != WEJUMO_JOINED || !wejumo_open(both, joined.value)) {
    return 1;
  }
  list(both, joined.value);
  return 0;
}

int main(void) {
  uint8_t first[IMAGE] = {0};
  uint32_t total = record();
  memcpy(first, rec.image, total);
  for (uint32_t i = 0; i < total; i++) {
    printf("%02X", first[i]);
  }
  printf("\n");
  if (!wejumo_open(first, total)) {
    printf("no image\n");
    return 1;
  }
  list(first, total);
  wejumo_part part = wejumo_opened_stream(first, total, 0, 1);
  printf("stream of signal 1: %u bytes from %u\n", (unsigned)part.length, (unsigned)part.from);
  uint8_t symbols[4] = {0};
  wejumo_cursor_answer found = wejumo_opened_cursor(first, total, 1, 15, symbols, sizeof symbols);
  printf("at 15: answer %u entry %u time %llu form %u\n", found.answer, found.value, (unsigned long long)found.time, found.content.form);
  found = wejumo_opened_cursor(first, total, 1, 9, symbols, sizeof symbols);
  printf("at 9, before its first change: answer %u\n", found.answer);
  return join(first, total);
}
