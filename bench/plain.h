// What the plain programs share: buffers, words, items of a payload, the map of one, files and texts. The checksum is zlib's.
#pragma once
#include <fcntl.h>
#include <stdbool.h>
#include <stdint.h>
#include <stdio.h>
#include <stdlib.h>
#include <string.h>
#include <sys/stat.h>
#include <unistd.h>
#include <zlib.h>

enum { PAGE = 4096, LARGEST = 1 << 26 };

// Where the words of a meta file stand.
enum { CHECKSUM = 0, VERSION = 4, SEQUENCE = 8, SIZE = 28, LAST_SIZE = 32, LAST_CHECKSUM = 36, FLAGS = 104 };

static const uint8_t heading[4] = {0xff, 0xff, 0xff, 0x07};

// Buffers

struct Bytes {
  uint8_t *at;
  size_t size, room;
};

static inline void *memory(void *old, size_t size) {
  void *at = realloc(old, size ? size : 1);
  if (!at) exit(8);
  return at;
}

static inline void make_room(struct Bytes *bytes, size_t more) {
  if (bytes->size + more <= bytes->room) return;
  bytes->room = 2 * bytes->room + more;
  bytes->at = memory(bytes->at, bytes->room);
}

static inline void push(struct Bytes *bytes, const void *from, size_t size) {
  make_room(bytes, size);
  memcpy(bytes->at + bytes->size, from, size);
  bytes->size += size;
}

static inline void push_byte(struct Bytes *bytes, uint8_t byte) {
  make_room(bytes, 1);
  bytes->at[bytes->size++] = byte;
}

// Zeros behind the bytes, up to this size.
static inline void grow(struct Bytes *bytes, size_t size) {
  bytes->at = memory(bytes->at, size);
  memset(bytes->at + bytes->size, 0, size - bytes->size);
  bytes->size = bytes->room = size;
}

// Words and checksums

static inline uint32_t word_at(const uint8_t *at) { return at[0] | at[1] << 8 | at[2] << 16 | (uint32_t)at[3] << 24; }

static inline void store_word(uint8_t *at, uint32_t word) {
  for (int i = 0; i < 4; i++) at[i] = (uint8_t)(word >> 8 * i);
}

static inline uint32_t checksum(uint32_t before, const uint8_t *at, size_t size) { return (uint32_t)crc32_z(before, at, size); }

// Items

static inline size_t length_size(size_t n) {
  size_t size = 1;
  for (; n >= 128; n >>= 7) size++;
  return size;
}

static inline void push_length(struct Bytes *bytes, size_t n) {
  for (; n >= 128; n >>= 7) push_byte(bytes, (uint8_t)(n | 128));
  push_byte(bytes, (uint8_t)n);
}

static inline void push_field(struct Bytes *bytes, const void *from, size_t size) {
  push_length(bytes, size);
  push(bytes, from, size);
}

static inline size_t read_length(const uint8_t **at, const uint8_t *end) {
  size_t n = 0;
  for (int shift = 0; *at < end; shift += 7) {
    uint8_t byte = *(*at)++;
    n |= (size_t)(byte & 127) << shift;
    if (byte < 128) return n;
  }
  exit(6);
}

static inline struct Bytes read_field(const uint8_t **at, const uint8_t *end) {
  size_t size = read_length(at, end);
  if (size > (size_t)(end - *at)) exit(6);
  struct Bytes read = {(uint8_t *)*at, size, size};
  *at += size;
  return read;
}

// A pair of a payload, which stays where it stands. The front of its key is a number, by which nearly all keys are told apart.
struct Item {
  uint64_t front;
  const uint8_t *key, *value;
  uint32_t key_size, value_size;
};

struct Items {
  struct Item *at;
  size_t count, room;
};

static inline uint64_t front_of(const uint8_t *key, size_t size) {
  uint8_t bytes[8] = {0};
  memcpy(bytes, key, size < 8 ? size : 8);
  uint64_t front;
  memcpy(&front, bytes, 8);
  return __builtin_bswap64(front);
}

static inline void push_item(struct Items *items, struct Bytes key, struct Bytes value) {
  if (items->count == items->room) items->at = memory(items->at, (items->room = 2 * items->room + 8) * sizeof *items->at);
  items->at[items->count++] = (struct Item){front_of(key.at, key.size), key.at, value.at, (uint32_t)key.size, (uint32_t)value.size};
}

static inline void decode(const uint8_t *at, size_t size, struct Items *items) {
  const uint8_t *end = at + size;
  items->count = 0;
  if (size) read_length(&at, end);
  while (at < end) {
    struct Bytes key = read_field(&at, end);
    if (key.size) push_item(items, key, read_field(&at, end));
  }
}

static inline int order_of(const struct Item *a, const struct Item *b) {
  if (a->front != b->front) return a->front < b->front ? -1 : 1;
  int order = memcmp(a->key, b->key, a->key_size < b->key_size ? a->key_size : b->key_size);
  return order ? order : (a->key_size > b->key_size) - (a->key_size < b->key_size);
}

// Sorts by key, equal keys in the order in which they stood: a merge, over runs of insertion.
static inline void sort(struct Item *items, struct Item *spare, size_t count) {
  if (count <= 12) {
    for (size_t i = 1; i < count; i++) {
      struct Item item = items[i];
      size_t to = i;
      for (; to && order_of(&items[to - 1], &item) > 0; to--) items[to] = items[to - 1];
      items[to] = item;
    }
    return;
  }
  size_t middle = count / 2, left = 0, right = middle, to = middle;
  sort(items, spare, middle);
  sort(items + middle, spare, count - middle);
  memcpy(spare, items, middle * sizeof *items);
  for (to = 0; left < middle; to++) {
    if (right < count && order_of(&spare[left], &items[right]) > 0) items[to] = items[right++];
    else items[to] = spare[left++];
  }
}

// The items become the pairs of their map, in byte order of keys: the last of each key, where it has a value.
static inline void map_of(struct Items *items) {
  struct Item *spare = memory(NULL, items->count / 2 * sizeof *spare);
  sort(items->at, spare, items->count);
  free(spare);
  size_t count = 0;
  for (size_t i = 0; i < items->count; i++) {
    bool last = i + 1 == items->count || order_of(&items->at[i], &items->at[i + 1]);
    if (last && items->at[i].value_size) items->at[count++] = items->at[i];
  }
  items->count = count;
}

// Files

static inline struct Bytes read_all(int file) {
  struct Bytes all = {0};
  struct stat about;
  if (!fstat(file, &about) && about.st_size > 0) make_room(&all, (size_t)about.st_size + 1);
  for (;;) {
    make_room(&all, 1 << 16);
    ssize_t got = read(file, all.at + all.size, all.room - all.size);
    if (got < 0) exit(5);
    if (!got) return all;
    all.size += (size_t)got;
  }
}

static inline struct Bytes file_of(const char *folder, const char *name, const char *end) {
  struct Bytes path = {0};
  push(&path, folder, strlen(folder));
  push_byte(&path, '/');
  push(&path, name, strlen(name));
  push(&path, end, strlen(end) + 1);
  int file = open((const char *)path.at, O_RDONLY);
  if (file < 0) exit(13);
  struct Bytes all = read_all(file);
  close(file);
  free(path.at);
  return all;
}

// Printed text: it is made whole, and written at once.

static struct Bytes text;

static inline void say(const char *words) { push(&text, words, strlen(words)); }

static inline void say_number(const char *before, uint64_t n) {
  char digits[20];
  size_t at = sizeof digits;
  say(before);
  do digits[--at] = (char)('0' + n % 10);
  while (n /= 10);
  push(&text, digits + at, sizeof digits - at);
}

static inline void say_hex(const char *before, const uint8_t *bytes, size_t size) {
  static const char digits[] = "0123456789abcdef";
  say(before);
  if (!size) say("-");
  make_room(&text, 2 * size);
  uint8_t *to = text.at + text.size;
  for (size_t i = 0; i < size; i++) {
    to[2 * i] = (uint8_t)digits[bytes[i] >> 4];
    to[2 * i + 1] = (uint8_t)digits[bytes[i] & 15];
  }
  text.size += 2 * size;
}

static inline void say_word(const char *before, uint32_t word) {
  uint8_t bytes[4] = {(uint8_t)(word >> 24), (uint8_t)(word >> 16), (uint8_t)(word >> 8), (uint8_t)word};
  say_hex(before, bytes, sizeof bytes);
}

// What a store shows whose record agrees.
static inline void say_region(const struct Bytes *body, const struct Bytes *meta) {
  say_number("region data ", body->size);
  say_number(" version ", word_at(meta->at + VERSION));
  say_number(" sequence ", word_at(meta->at + SEQUENCE));
  say_number(" flags ", word_at(meta->at + FLAGS));
  say_number("\nsizes header ", word_at(body->at));
  say_number(" record ", word_at(meta->at + SIZE));
  say_number(" last ", word_at(meta->at + LAST_SIZE));
  say_word("\nchecksums record ", word_at(meta->at + CHECKSUM));
  say_word(" last ", word_at(meta->at + LAST_CHECKSUM));
  say_number("\nshown whole ", word_at(meta->at + SIZE));
}

static inline void say_pair(const uint8_t *key, size_t key_size, const uint8_t *value, size_t value_size) {
  say_hex("\npair ", key, key_size);
  say_hex(" ", value, value_size);
  say(" 0");
}

static inline int write_text(void) {
  for (size_t at = 0; at < text.size;) {
    ssize_t put = write(STDOUT_FILENO, text.at + at, text.size - at);
    if (put <= 0) return 4;
    at += (size_t)put;
  }
  return 0;
}
