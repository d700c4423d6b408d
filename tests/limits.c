/* Joins at the limit of an image: a total of 1,073,741,824 bytes is taken; one byte more is refused with 8 though the output has room, and the
 * output stays.
 *
 * The images are pages of zeros but for their first bytes: one time, a stream of an event, and one of a vector of width 65,536 whose changes
 * are all zeros. A page that is only read takes no memory, so what is used is the output of the join that is taken: 1 GiB. */
#define _DEFAULT_SOURCE
#include "wejumo.h"

#include <stdio.h>
#include <stdlib.h>
#include <string.h>
#include <sys/mman.h>

#define TOP ((size_t)WEJUMO_MAX_IMAGE)

enum { HEAD = 24, FRONT = 28, CHANGE = 8193, MARK = 0xA5 };

static void fail(const char *why, uint32_t number) {
  printf("limits: %s %u\n", why, number);
  exit(1);
}

static uint8_t *zeros(size_t length) {
  void *memory = mmap(NULL, length, PROT_READ | PROT_WRITE, MAP_PRIVATE | MAP_ANONYMOUS | MAP_NORESERVE, -1, 0);
  if (memory == MAP_FAILED) fail("no memory of MB", (uint32_t)(length >> 20));
  return memory;
}

/* An image of so many bytes: as many changes of the vector as fit, and the events fill the rest. */
static uint8_t *image_of(size_t total) {
  size_t streams = total - HEAD - FRONT - 2, events = streams % CHANGE ? streams % CHANGE : CHANGE;
  const uint32_t numbers[] = {2, 2, 1, (uint32_t)total, WEJUMO_EVENT, 65536, /* S, B, N, total, kinds */
                              (uint32_t)total - HEAD, 1, 2, 1, (uint32_t)events + 2}; /* size, T, S, offsets; the time is 0 */
  uint8_t *image = zeros(total);
  memcpy(image, numbers, sizeof numbers);
  return image;
}

/* The next byte of an output that is marked: its first ones, and then one in each MB. */
static size_t after(size_t at) {
  return at < 64 ? at + 1 : at + (1 << 20);
}

static void refused(const uint8_t *first, size_t first_length, const uint8_t *second, size_t second_length, size_t room) {
  uint8_t *out = zeros(room);
  for (size_t at = 0; at < room; at = after(at)) out[at] = MARK;
  wejumo_join_answer answer = wejumo_join(first, first_length, second, second_length, out, room);
  if (answer.answer != WEJUMO_REFUSED || answer.value != WEJUMO_IMAGE_FULL) fail("not refused with 8, but", answer.value);
  for (size_t at = 0; at < room; at = after(at)) {
    if (out[at] != MARK) fail("a refused join wrote at MB", (uint32_t)(at >> 20));
  }
  munmap(out, room);
}

/* The output is exactly full, and had another value in every byte that becomes 0. */
static void taken(const uint8_t *first, size_t first_length, const uint8_t *second, size_t second_length) {
  const uint32_t head[] = {2, 2, 2, WEJUMO_MAX_IMAGE, WEJUMO_EVENT, 65536};
  uint8_t *out = zeros(TOP);
  memset(out, MARK, TOP);
  wejumo_join_answer answer = wejumo_join(first, first_length, second, second_length, out, TOP);
  if (answer.answer != WEJUMO_JOINED || answer.value != WEJUMO_MAX_IMAGE) fail("not joined, but", answer.value);
  if (memcmp(out, head, HEAD)) fail("a wrong byte below", HEAD);
  if (memcmp(out + HEAD, first + HEAD, first_length - HEAD)) fail("a wrong byte below", (uint32_t)first_length);
  if (memcmp(out + first_length, second + HEAD, second_length - HEAD)) fail("a wrong byte below", WEJUMO_MAX_IMAGE);
  if (wejumo_open(out, TOP) != 1) fail("not accepted, of bytes", WEJUMO_MAX_IMAGE);
  munmap(out, TOP);
}

int main(void) {
  size_t half = TOP / 2, rest = TOP - half + HEAD;
  uint8_t *first = image_of(half), *second = image_of(rest), *longer = image_of(rest + 1), *longest = image_of(TOP);
  refused(first, half, second, rest, TOP - 1);
  refused(first, half, longer, rest + 1, TOP + 1);
  refused(longer, rest + 1, first, half, TOP + 1);
  refused(longest, TOP, longest, TOP, 2 * TOP);
  taken(first, half, second, rest);
  return 0;
}
