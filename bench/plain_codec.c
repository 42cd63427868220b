// A plain program that does what `codec_bench` does, with the same words and the same lines, the yardstick of codec.py. Its items
// point into the payload; ours copies each key and value out of it.
#include "plain.h"

static void write_digits(uint32_t number, uint8_t *digits, size_t size) {
  for (size_t i = size; i > 0; i--, number /= 10) digits[i - 1] = (uint8_t)('0' + number % 10);
}

static struct Bytes payload_of(uint32_t count) {
  struct Bytes payload = {0};
  uint8_t key[9] = "key", value[8];
  uint64_t number = 0;
  push(&payload, heading, sizeof heading);
  for (uint32_t i = 0; i < count; i++) {
    number = (number * 21 + 7919) % count;
    write_digits((uint32_t)number, key + 3, 6);
    write_digits((uint32_t)number * 2654435761u, value, 8);
    push_field(&payload, key, sizeof key);
    push_field(&payload, value, sizeof value);
  }
  return payload;
}

static void pack(const struct Items *map, struct Bytes *out) {
  size_t size = sizeof heading;
  for (size_t i = 0; i < map->count; i++) {
    const struct Item *item = &map->at[i];
    size += length_size(item->key_size) + item->key_size + length_size(item->value_size) + item->value_size;
  }
  out->size = 0;
  make_room(out, size);
  push(out, heading, sizeof heading);
  for (size_t i = 0; i < map->count; i++) {
    const struct Item *item = &map->at[i];
    push_field(out, item->key, item->key_size);
    push_field(out, item->value, item->value_size);
  }
}

static void pack_again(uint32_t pairs, uint32_t times) {
  struct Bytes payload = payload_of(pairs), out = {0};
  struct Items items = {0};
  decode(payload.at, payload.size, &items);
  map_of(&items);
  for (uint32_t i = 0; i < times; i++) pack(&items, &out);
  printf("pack %u bytes %zu checksum %08x\n", pairs, out.size, checksum(0, out.at, out.size));
}

static void decode_again(uint32_t pairs, uint32_t times) {
  struct Bytes payload = payload_of(pairs);
  size_t count = 0;
  for (uint32_t i = 0; i < times; i++) {
    struct Items items = {0};
    decode(payload.at, payload.size, &items);
    count = items.count;
    free(items.at);
  }
  printf("decode %u items %zu\n", pairs, count);
}

static void sum_again(uint32_t size, uint32_t times) {
  uint8_t *bytes = memory(NULL, size);
  for (uint32_t i = 0; i < size; i++) bytes[i] = (uint8_t)(i % 251);
  uint32_t sum = 0;
  for (uint32_t i = 0; i < times; i++) sum = checksum(sum, bytes, size);
  printf("crc %u checksum %08x\n", size, sum);
}

int main(int argc, char **argv) {
  if (argc != 4) return 2;
  uint32_t size = (uint32_t)strtoul(argv[2], NULL, 10), times = (uint32_t)strtoul(argv[3], NULL, 10);
  if (!strcmp(argv[1], "pack")) pack_again(size, times);
  else if (!strcmp(argv[1], "decode")) decode_again(size, times);
  else if (!strcmp(argv[1], "crc")) sum_again(size, times);
  else return 2;
}
