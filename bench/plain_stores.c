// A plain program that makes the stores that `stores_bench` makes, with the same words and the same lines: the yardstick of
// stores.py. A region is two arrays of bytes, and each store and growth is pushed on an array of events beside them, for which
// memory is taken before the first, as ours does. An event here is 24 bytes with a pointer to its change; ours holds its
// change, and is larger.
#include "plain.h"

enum { MOST_BYTES = 1 << 23, ITEM = 100, VALUE_SIZE = 90, KEY_SIZE = 8 };

static const uint8_t first_bytes[8] = {0, 0, 0, 0, 0x9d, 0x0a, 0xd9, 0x6d};
static const uint8_t record_bytes[32] = {[4] = 3, [8] = 1, [28] = 4};

enum Kind { STORE, GROW, LOCK };
enum Side { DATA, META };

struct Event {
  uint32_t who;
  uint8_t kind, side;
  uint32_t word, value;
  struct Bytes *change;
};

struct Region {
  struct Bytes body, meta;
  struct Event *events;
  size_t count, places;
};

struct Pair {
  uint8_t key[KEY_SIZE], value[VALUE_SIZE];
};

// The next word of bytes, with zeros behind their end.
static uint32_t next_word(const uint8_t *bytes, size_t left) {
  if (left >= 4) return word_at(bytes);
  uint8_t last[4] = {0};
  memcpy(last, bytes, left);
  return word_at(last);
}

static void reserve(struct Region *region, size_t places) {
  region->places = region->count + places;
  region->events = memory(region->events, region->places * sizeof *region->events);
}

static void note(struct Region *region, struct Event event) {
  if (region->count == region->places) reserve(region, region->places + 1);
  region->events[region->count++] = event;
}

static struct Region region_of(size_t size) {
  struct Region region = {0};
  grow(&region.body, (size + PAGE - 1) / PAGE * PAGE);
  memcpy(region.body.at, first_bytes, sizeof first_bytes);
  grow(&region.meta, PAGE);
  memcpy(region.meta.at, record_bytes, sizeof record_bytes);
  note(&region, (struct Event){.who = 1, .kind = LOCK});
  return region;
}

static void leave(struct Region *region) {
  for (size_t i = 0; i < region->count; i++) {
    struct Bytes *change = region->events[i].change;
    if (!change) continue;
    free(change->at);
    free(change);
  }
  free(region->events);
  free(region->body.at);
  free(region->meta.at);
}

static void store(struct Region *region, uint8_t side, uint32_t word, uint32_t value, struct Bytes *change) {
  uint8_t *at = (side == DATA ? region->body.at : region->meta.at) + 4 * (size_t)word;
  store_word(at, value);
  note(region, (struct Event){1, STORE, side, word, value, change});
}

static void store_words(struct Region *region, uint32_t word, const struct Bytes *bytes) {
  for (size_t i = 0; i < bytes->size; i += 4) store(region, DATA, word++, next_word(bytes->at + i, bytes->size - i), NULL);
}

static struct Bytes *change_of(const uint8_t *value, size_t size) {
  struct Bytes *change = memory(NULL, sizeof *change);
  *change = (struct Bytes){0};
  push(change, value, size);
  return change;
}

static struct Region append(const struct Bytes *value) {
  struct Bytes item = {0};
  struct Bytes *change = change_of(value->at, value->size);
  push_field(&item, "k", 1);
  push_field(&item, value->at, value->size);
  struct Region region = region_of(8 + item.size);
  uint32_t size = 4 + (uint32_t)item.size, sum = checksum(0, item.at, item.size);
  reserve(&region, (item.size + 3) / 4 + 3);
  store_words(&region, 2, &item);
  store(&region, DATA, 0, size, NULL);
  store(&region, META, 0, sum, change);
  store(&region, META, 7, size, NULL);
  free(item.at);
  return region;
}

// The file's size for a payload of so many bytes and so many pairs: room for half as many again, and doubled from a page on.
static size_t grown_size(size_t packed, size_t pairs) {
  size_t needs = 4 + packed, half = (pairs + 1) / 2, size = PAGE;
  size_t wanted = needs + needs / (pairs ? pairs : 1) * (half > 8 ? half : 8);
  while (size <= wanted) {
    if (2 * size > LARGEST) return LARGEST;
    size *= 2;
  }
  return size;
}

static struct Region write_back(const struct Pair *pairs, size_t count) {
  struct Bytes payload = {0};
  payload.at = memory(NULL, payload.room = sizeof heading + count * ITEM);
  push(&payload, heading, sizeof heading);
  for (size_t i = 0; i < count; i++) {
    push_field(&payload, pairs[i].key, KEY_SIZE);
    push_field(&payload, pairs[i].value, VALUE_SIZE);
  }
  size_t wanted = grown_size(payload.size, count);
  struct Region region = region_of(PAGE);
  uint32_t size = (uint32_t)payload.size, sum = checksum(0, payload.at, payload.size);
  reserve(&region, (payload.size + 3) / 4 + 7);
  if (wanted > region.body.size) {
    grow(&region.body, wanted);
    note(&region, (struct Event){.who = 1, .kind = GROW, .value = (uint32_t)wanted});
  }
  store(&region, META, 2, 2, NULL);
  store_words(&region, 1, &payload);
  store(&region, DATA, 0, size, NULL);
  store(&region, META, 0, sum, change_of((const uint8_t *)"", 0));
  store(&region, META, 7, size, NULL);
  store(&region, META, 8, size, NULL);
  store(&region, META, 9, sum, NULL);
  free(payload.at);
  return region;
}

static void print(const char *deed, uint32_t bytes, struct Region *region) {
  uint32_t body = checksum(0, region->body.at, region->body.size), meta = checksum(0, region->meta.at, region->meta.size);
  printf("%s %u events %zu files %08x %08x\n", deed, bytes, region->count, body, meta);
  leave(region);
}

static void append_again(uint32_t bytes, uint32_t times) {
  struct Bytes value = {0};
  grow(&value, bytes);
  for (uint32_t i = 0; i < bytes; i++) value.at[i] = (uint8_t)(i % 251);
  for (uint32_t i = 1; i < times; i++) {
    struct Region region = append(&value);
    leave(&region);
  }
  struct Region region = append(&value);
  print("append", bytes, &region);
}

static void write_back_again(uint32_t bytes, uint32_t times) {
  uint32_t count = bytes / ITEM;
  struct Pair *pairs = memory(NULL, count * sizeof *pairs);
  for (uint32_t i = 0; i < count; i++) {
    uint8_t key[KEY_SIZE] = {'k', 'e', 'y', 0, (uint8_t)(i >> 24), (uint8_t)(i >> 16), (uint8_t)(i >> 8), (uint8_t)i};
    memcpy(pairs[i].key, key, KEY_SIZE);
    memset(pairs[i].value, (int)('a' + i % 26), VALUE_SIZE);
  }
  for (uint32_t i = 1; i < times; i++) {
    struct Region region = write_back(pairs, count);
    leave(&region);
  }
  struct Region region = write_back(pairs, count);
  print("write_back", bytes, &region);
}

int main(int argc, char **argv) {
  if (argc != 4) return 2;
  uint32_t bytes = (uint32_t)strtoul(argv[2], NULL, 10), times = (uint32_t)strtoul(argv[3], NULL, 10);
  if (!bytes || bytes > MOST_BYTES) return 1;
  if (!strcmp(argv[1], "append")) append_again(bytes, times);
  else if (!strcmp(argv[1], "write_back")) write_back_again(bytes, times);
  else return 2;
}
