/* Three images joined in either grouping, for every ordered triple of the recordings of a table: the first two and then the third
 * (left), or the first and then the joined last two (right).
 *
 * Where both groupings join, their bytes are equal. Where each image has a block and the outputs are long enough, one grouping is
 * refused with 14 or 16 exactly when the other is, and with nothing else. Each outcome is also held against a second reading of the
 * rule, which knows the table's settings and times and the bytes of the single images. A refused join writes nothing, and none writes
 * past the total; what is joined is accepted; outputs of exactly the needed length are enough, and with one byte less a join is
 * refused with 8. */
#include "wejumo.h"

#include <stdio.h>
#include <stdlib.h>
#include <string.h>

enum { SIGNALS = 3, TIMES = 4, WORK = 256, IMAGE = 512, OUT = 3 * IMAGE, MARK = 0xA5 };

struct setting {
  uint32_t limit, signals, kinds[SIGNALS];
};

/* No two are equal: each of the others differs from the plain one in B alone, in S alone, or in one kind alone. */
static const struct setting plain = {2, 3, {1, WEJUMO_EVENT, WEJUMO_REAL}};
static const struct setting longer = {3, 3, {1, WEJUMO_EVENT, WEJUMO_REAL}};
static const struct setting fewer = {2, 2, {1, WEJUMO_EVENT}};
static const struct setting wider = {2, 3, {2, WEJUMO_EVENT, WEJUMO_REAL}};
static const struct setting absent = {2, 3, {1, WEJUMO_EVENT, WEJUMO_ABSENT}};

/* There are as many times as symbols in `values`; at each time every signal that is not absent has a change, made from its symbol. */
static const struct recording {
  const char *name;
  const struct setting *setting;
  const char *values;
  uint64_t times[TIMES];
} table[] = {
    {"empty", &plain, "", {0}},
    {"0", &plain, "0", {0}},
    {"1 to 5", &plain, "0x1", {1, 3, 5}},
    {"5", &plain, "1", {5}},
    {"another 5", &plain, "h", {5}},
    {"5 to 9", &plain, "110", {5, 7, 9}}, /* starts with the values that '1 to 5' ends with */
    {"6 to 12", &plain, "0zz1", {6, 8, 10, 12}},
    {"12 to 20", &plain, "10", {12, 20}},
    {"30 to top", &plain, "0w0", {30, 31, UINT64_MAX}},
    {"top", &plain, "0", {UINT64_MAX}},
    {"0 to top", &plain, "0-", {0, UINT64_MAX}},
    {"longer, empty", &longer, "", {0}},
    {"longer, 1 to 9", &longer, "0110", {1, 3, 5, 9}},
    {"longer, 9", &longer, "0", {9}},
    {"fewer, 5", &fewer, "1", {5}},
    {"wider, 5", &wider, "1", {5}},
    {"absent, 5 to 9", &absent, "110", {5, 7, 9}},
};

enum { ROWS = sizeof table / sizeof table[0] };

/* An image, or why there is none, and all the memory where a join might write. */
struct image {
  uint32_t refusal; /* 0 where there is one */
  uint32_t length;
  uint8_t bytes[OUT];
};

static struct image images[ROWS];

/* What is being done, for the words of a failure. */
static const char *step = "recording", *names[3] = {"", "", ""};

static void hold(const char *what, uint64_t wanted, uint64_t got) {
  if (wanted == got) return;
  printf("groupings: %s (%s) (%s) (%s): %s: wanted %llu, got %llu\n", step, names[0], names[1], names[2], what,
         (unsigned long long)wanted, (unsigned long long)got);
  exit(1);
}

static struct {
  wejumo_state state;
  uint64_t records[SIGNALS], times[TIMES];
  uint8_t work[WORK], image[IMAGE];
} rec;

#define LENT rec.records, rec.state.signals, rec.times, TIMES, rec.work, WORK, rec.image, IMAGE

static uint32_t keep(const char *call, uint32_t wanted, wejumo_outcome done) {
  hold(call, wanted, done.answer);
  rec.state = done.state;
  return done.value;
}

/* The probes take turns, by the numbers of signals and of times. */
static uint32_t probe(size_t number) {
  return number % 2;
}

static void change(uint32_t signal, uint32_t kind, const uint8_t *value) {
  if (kind == WEJUMO_REAL) {
    keep("real", WEJUMO_RECORDED, wejumo_real_change(rec.state, LENT, probe(signal), signal, *value));
  } else if (kind != WEJUMO_ABSENT) {
    keep("value", WEJUMO_RECORDED, wejumo_vcd_value_change(rec.state, LENT, probe(signal), signal, value, 1));
  }
}

static void record(int row) {
  const struct setting *as = table[row].setting;
  const uint8_t *values = (const uint8_t *)table[row].values;
  names[0] = table[row].name;
  for (uint32_t s = 0; s < as->signals; s++) rec.records[s] = WEJUMO_RECORD(as->kinds[s], probe(s));
  keep("start", WEJUMO_STARTED,
       wejumo_start(rec.state, as->limit, as->signals, WEJUMO_EDITION_1, rec.records, as->signals, rec.times, TIMES, rec.image,
                    IMAGE));
  for (size_t i = 0; values[i]; i++) {
    keep("time", WEJUMO_TAKEN, wejumo_time_change(rec.state, LENT, probe(i), table[row].times[i]));
    for (uint32_t s = 0; s < as->signals; s++) change(s, as->kinds[s], values + i);
  }
  images[row].length = keep("finish", WEJUMO_FINISHED, wejumo_finish(rec.state, LENT));
  memcpy(images[row].bytes, rec.image, images[row].length);
  hold("accepted", 1, wejumo_open(images[row].bytes, images[row].length));
}

/* Lends so many bytes; they and the memory behind them have the mark. */
static struct image join(const struct image *first, const struct image *second, size_t room) {
  struct image out;
  memset(out.bytes, MARK, OUT);
  wejumo_join_answer answer = wejumo_join(first->bytes, first->length, second->bytes, second->length, out.bytes, room);
  int joined = answer.answer == WEJUMO_JOINED;
  out.refusal = joined ? 0 : answer.value;
  out.length = joined ? answer.value : 0;
  hold("answer", out.refusal ? WEJUMO_REFUSED : WEJUMO_JOINED, answer.answer);
  if (joined) hold("accepted", 1, wejumo_open(out.bytes, out.length));
  for (size_t at = out.length; at < OUT; at++) hold("a byte that stays", MARK, out.bytes[at]);
  return out;
}

static struct image group(int right, const int *rows, size_t inner, size_t outer) {
  const struct image *a = &images[rows[0]], *b = &images[rows[1]], *c = &images[rows[2]];
  step = right ? "right" : "left";
  struct image pair = right ? join(b, c, inner) : join(a, b, inner);
  if (pair.refusal) return pair;
  return right ? join(a, &pair, outer) : join(&pair, c, outer);
}

/* The second reading of an image: why there is none, or the recordings whose blocks it has, and its last time. */
struct plan {
  uint32_t refusal;
  int count, rows[3];
  uint64_t last;
};

static struct plan single(int row) {
  size_t times = strlen(table[row].values);
  return (struct plan){0, 1, {row}, times ? table[row].times[times - 1] : 0};
}

static struct plan follow(struct plan first, struct plan second) {
  const struct recording *x = &table[first.rows[0]], *y = &table[second.rows[0]];
  if (first.refusal) return first;
  if (second.refusal) return second;
  if (x->setting != y->setting) return (struct plan){.refusal = 14};
  if (!*x->values) return (struct plan){.refusal = 15};
  if (!*y->values) return first;
  if (y->times[0] < first.last) return (struct plan){.refusal = 16};
  for (int i = 0; i < second.count; i++) first.rows[first.count++] = second.rows[i];
  first.last = second.last;
  return first;
}

/* The head of the first, in it the number of all blocks and the total; then the blocks. */
static struct image written(struct plan plan) {
  struct image out = {.refusal = plan.refusal};
  memset(out.bytes, MARK, OUT);
  if (plan.refusal) return out;
  uint32_t head = 16 + 4 * table[plan.rows[0]].setting->signals, blocks = 0, more;
  memcpy(out.bytes, images[plan.rows[0]].bytes, head);
  out.length = head;
  for (int i = 0; i < plan.count; i++) {
    const struct image *one = &images[plan.rows[i]];
    memcpy(&more, one->bytes + 8, 4);
    memcpy(out.bytes + out.length, one->bytes + head, one->length - head);
    blocks += more;
    out.length += one->length - head;
  }
  memcpy(out.bytes + 8, &blocks, 4);
  memcpy(out.bytes + 12, &out.length, 4);
  return out;
}

static void same(struct image wanted, struct image got) {
  size_t equal = 0;
  hold("refusal", wanted.refusal, got.refusal);
  hold("length", wanted.length, got.length);
  while (equal < OUT && wanted.bytes[equal] == got.bytes[equal]) equal++;
  hold("equal bytes", OUT, equal);
}

static void second_reading(const int *rows, struct image left, struct image right) {
  struct plan a = single(rows[0]), b = single(rows[1]), c = single(rows[2]);
  step = "left";
  same(written(follow(follow(a, b), c)), left);
  step = "right";
  same(written(follow(a, follow(b, c))), right);
}

static int for_14_or_16(struct image image) {
  return image.refusal == WEJUMO_UNLIKE || image.refusal == WEJUMO_OVERLAP;
}

/* What holds of three images with a block each, by the library's answers alone. */
static void refused_alike(struct image left, struct image right) {
  step = "left against right";
  hold("refused with 14 or 16", for_14_or_16(left), for_14_or_16(right));
  hold("left joined where not refused so", !for_14_or_16(left), !left.refusal);
  hold("right joined where not refused so", !for_14_or_16(right), !right.refusal);
}

/* A grouping that joins, with outputs that are just long enough, and too short. */
static void rooms(int right, const int *rows, struct image made) {
  uint32_t head = 16 + 4 * table[rows[0]].setting->signals;
  size_t inner = images[rows[right]].length + images[rows[right + 1]].length - head;
  same(made, group(right, rows, inner, made.length));
  hold("refusal, inner output short", WEJUMO_IMAGE_FULL, group(right, rows, inner - 1, made.length).refusal);
  hold("refusal, outer output short", WEJUMO_IMAGE_FULL, group(right, rows, inner, made.length - 1).refusal);
}

/* How many triples, by whether each image has a block, and by the refusals left and right. */
static unsigned seen[2][17][17];

static void triple(const int *rows) {
  size_t room = 0;
  int whole = 1;
  for (int i = 0; i < 3; i++) {
    const struct image *one = &images[rows[i]];
    names[i] = table[rows[i]].name;
    room += one->length;
    whole = whole && wejumo_opened_blocks(one->bytes, one->length) > 0;
  }
  struct image left = group(0, rows, room, room), right = group(1, rows, room, room);
  if (whole) refused_alike(left, right);
  if (!left.refusal && !right.refusal) {
    step = "left against right";
    same(left, right);
    rooms(0, rows, left);
    rooms(1, rows, right);
  }
  second_reading(rows, left, right);
  seen[whole][left.refusal][right.refusal]++;
}

/* Each of these must occur. The last three show why the first and the second image need a block. */
static void summary(void) {
  static const struct {
    const char *words;
    int whole, left, right;
  } outcomes[] = {
      {"joined", 1, 0, 0},
      {"both 14", 1, 14, 14},
      {"both 16", 1, 16, 16},
      {"left 14 right 16", 1, 14, 16},
      {"left 16 right 14", 1, 16, 14},
      {"left joined right 15", 0, 0, 15},
      {"left 16 right 15", 0, 16, 15},
      {"left 15 right 16", 0, 15, 16},
  };
  unsigned lacking = 0;
  printf("groupings: %d triples", ROWS * ROWS * ROWS);
  for (size_t i = 0; i < sizeof outcomes / sizeof outcomes[0]; i++) {
    unsigned count = seen[outcomes[i].whole][outcomes[i].left][outcomes[i].right];
    printf(", %u %s", count, outcomes[i].words);
    lacking += count == 0;
  }
  printf("\n");
  step = "all triples", names[0] = names[1] = names[2] = "";
  hold("outcomes that no triple had", 0, lacking);
}

int main(void) {
  for (int row = 0; row < ROWS; row++) record(row);
  for (int i = 0; i < ROWS * ROWS * ROWS; i++) {
    const int rows[3] = {i / (ROWS * ROWS), i / ROWS % ROWS, i % ROWS};
    triple(rows);
  }
  summary();
  return 0;
}
