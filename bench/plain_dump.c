// A plain program that prints what `mmkv DIR dump ID` prints for a store whose record agrees, the yardstick of dump.py:
// plain_dump DIR ID. The pairs stay where they stand in the file; one sort makes the map.
#include "plain.h"

int main(int argc, char **argv) {
  if (argc != 3) return 2;
  struct Bytes body = file_of(argv[1], argv[2], ""), meta = file_of(argv[1], argv[2], ".crc");
  if (body.size % PAGE || !body.size || body.size > LARGEST || meta.size < PAGE) return 14;
  size_t size = word_at(meta.at + SIZE);
  if (4 + size > body.size || checksum(0, body.at + 4, size) != word_at(meta.at + CHECKSUM)) return 6;
  struct Items items = {0};
  decode(body.at + 4, size, &items);
  map_of(&items);
  say_region(&body, &meta);
  say_number("\npairs ", items.count);
  for (size_t i = 0; i < items.count; i++) {
    const struct Item *item = &items.at[i];
    say_pair(item->key, item->key_size, item->value, item->value_size);
  }
  say("\n");
  return write_text();
}
