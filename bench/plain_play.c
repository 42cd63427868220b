// A plain program that prints what `mmkv DIR play ID` prints for the scripts of play.py and reads.py, their yardstick:
// plain_play DIR ID < SCRIPT
// It takes puts of u32 values and gets by up to 9 openers, on a store of version 3 without expiry whose record agrees. The files are two
// arrays of bytes, and each change is made in them: an append, and a write-back before it where the item doesn't fit. An opener's map is
// an array of pairs in byte order of keys. Where others have appended, it goes on from the size that it knows; where one has written the
// pairs anew, it loads them whole. It keeps the changes for printing, but no list of events, and works out the counts of a call from its
// sizes, while ours makes each step and counts. A call is made whole at its step line, which must be long enough.
#include "plain.h"

struct Pair {
  struct Bytes key, value;
};

struct Change {
  bool pack;
  size_t who;
  uint32_t now;
  struct Pair pair;
};

struct Call {
  bool runs, put;
  uint32_t now;
  struct Pair pair;
};

// The map, the record that it was read from, and the call that runs.
struct Opener {
  struct Pair *pairs;
  size_t count, room;
  bool warm;
  uint32_t size, checksum, sequence;
  struct Call call;
};

static struct Bytes body, meta;
static struct Opener openers[10];
static size_t opener_count;
static struct Change *changes;
static size_t change_count, change_room;

static struct Bytes copy(struct Bytes from) {
  struct Bytes to = {0};
  push(&to, from.at, from.size);
  return to;
}

// The map

static void push_pair(struct Bytes *bytes, const struct Pair *pair) {
  push_field(bytes, pair->key.at, pair->key.size);
  push_field(bytes, pair->value.at, pair->value.size);
}

static int compare(const struct Bytes *a, const struct Bytes *b) {
  int order = memcmp(a->at, b->at, a->size < b->size ? a->size : b->size);
  return order ? order : (a->size > b->size) - (a->size < b->size);
}

// The place of the first pair whose key isn't below this one.
static size_t place_of(const struct Opener *opener, const struct Bytes *key) {
  size_t low = 0, high = opener->count;
  while (low < high) {
    size_t middle = (low + high) / 2;
    if (compare(&opener->pairs[middle].key, key) < 0) low = middle + 1;
    else high = middle;
  }
  return low;
}

static const struct Pair *find(const struct Opener *opener, const struct Bytes *key) {
  size_t at = place_of(opener, key);
  return at < opener->count && !compare(&opener->pairs[at].key, key) ? &opener->pairs[at] : NULL;
}

static void set(struct Opener *opener, const struct Pair *pair) {
  size_t at = place_of(opener, &pair->key);
  if (at < opener->count && !compare(&opener->pairs[at].key, &pair->key)) {
    struct Bytes *value = &opener->pairs[at].value;
    value->size = 0;
    push(value, pair->value.at, pair->value.size);
    return;
  }
  if (opener->count == opener->room) opener->pairs = memory(opener->pairs, (opener->room = 2 * opener->room + 8) * sizeof *opener->pairs);
  memmove(opener->pairs + at + 1, opener->pairs + at, (opener->count - at) * sizeof *opener->pairs);
  opener->pairs[at] = (struct Pair){copy(pair->key), copy(pair->value)};
  opener->count++;
}

static struct Bytes part(const uint8_t *at, size_t size) { return (struct Bytes){(uint8_t *)at, size, size}; }

static void clear(struct Opener *opener) {
  for (size_t i = 0; i < opener->count; i++) {
    free(opener->pairs[i].key.at);
    free(opener->pairs[i].value.at);
  }
  free(opener->pairs);
}

// The record as it is now is the one that the opener's map was read from.
static void keep(struct Opener *opener) {
  opener->warm = true;
  opener->size = word_at(meta.at + SIZE);
  opener->checksum = word_at(meta.at + CHECKSUM);
  opener->sequence = word_at(meta.at + SEQUENCE);
}

static void load(struct Opener *opener) {
  size_t size = word_at(meta.at + SIZE);
  if (word_at(meta.at + VERSION) != 3 || word_at(meta.at + FLAGS) || 4 + size > body.size) exit(17);
  if (checksum(0, body.at + 4, size) != word_at(meta.at + CHECKSUM)) exit(17);
  struct Items items = {0};
  decode(body.at + 4, size, &items);
  map_of(&items);
  clear(opener);
  opener->pairs = memory(NULL, (opener->room = opener->count = items.count) * sizeof *opener->pairs);
  for (size_t i = 0; i < items.count; i++) {
    const struct Item *item = &items.at[i];
    opener->pairs[i] = (struct Pair){copy(part(item->key, item->key_size)), copy(part(item->value, item->value_size))};
  }
  free(items.at);
  keep(opener);
}

// Reads what was appended behind the size that the opener knows.
static void go_on(struct Opener *opener) {
  const uint8_t *at = body.at + 4 + opener->size, *end = body.at + 4 + word_at(meta.at + SIZE);
  if (checksum(opener->checksum, at, (size_t)(end - at)) != word_at(meta.at + CHECKSUM)) exit(17);
  while (at < end) {
    struct Bytes key = read_field(&at, end);
    set(opener, &(struct Pair){key, read_field(&at, end)});
  }
  keep(opener);
}

// Brings the opener's map up to date, and gives how many words ours would load for it.
static size_t catch_up(struct Opener *opener) {
  size_t size = word_at(meta.at + SIZE), words = (size + 3) / 4, looks = opener->warm ? 2 : 0;
  if (!opener->warm || word_at(meta.at + SEQUENCE) != opener->sequence) {
    load(opener);
    return looks + 10 + words;
  }
  if (word_at(meta.at + CHECKSUM) == opener->checksum) return looks;
  size_t front = opener->size / 4;
  go_on(opener);
  return looks + 3 + words - front;
}

// Changes of the files

static void note(struct Change change) {
  if (change_count == change_room) changes = memory(changes, (change_room = 2 * change_room + 8) * sizeof *changes);
  changes[change_count++] = change;
}

static size_t grown_size(size_t pairs, size_t packed, size_t need) {
  size_t wanted = 4 + packed + need, half = (pairs + 1) / 2, size = body.size;
  wanted += wanted / (pairs ? pairs : 1) * (half > 8 ? half : 8);
  while (size <= wanted && size < LARGEST) size = 2 * size > LARGEST ? LARGEST : 2 * size;
  return size;
}

// Writes bytes behind the payload's first `from` and gives the number of words that they touch.
static size_t write_words(size_t from, const struct Bytes *bytes) {
  size_t end = from + bytes->size, whole = (end + 3) / 4 * 4;
  memcpy(body.at + 4 + from, bytes->at, bytes->size);
  memset(body.at + 4 + end, 0, whole - end);
  return whole / 4 - from / 4;
}

// What a call did: stores of words, and events besides.
struct Done {
  size_t stores, growths;
};

static void write_back(size_t who, size_t need, uint32_t now, struct Done *done) {
  const struct Opener *opener = &openers[who];
  struct Bytes packed = {0};
  push(&packed, heading, sizeof heading);
  for (size_t i = 0; i < opener->count; i++) push_pair(&packed, &opener->pairs[i]);
  size_t wanted = grown_size(opener->count, packed.size, need);
  if (4 + packed.size + need > LARGEST || word_at(meta.at + SEQUENCE) == UINT32_MAX) exit(1);
  if (wanted > body.size) {
    grow(&body, wanted);
    done->growths = 1;
  }
  uint32_t sum = checksum(0, packed.at, packed.size);
  store_word(meta.at + SEQUENCE, word_at(meta.at + SEQUENCE) + 1);
  done->stores += 6 + write_words(0, &packed);
  store_word(body.at, (uint32_t)packed.size);
  store_word(meta.at + CHECKSUM, sum);
  store_word(meta.at + SIZE, (uint32_t)packed.size);
  store_word(meta.at + LAST_SIZE, (uint32_t)packed.size);
  store_word(meta.at + LAST_CHECKSUM, sum);
  note((struct Change){.pack = true, .who = who, .now = now});
  free(packed.at);
}

static struct Done put(size_t who, const struct Pair *pair, uint32_t now) {
  static struct Bytes item;
  struct Done done = {0};
  item.size = 0;
  push_pair(&item, pair);
  size_t size = word_at(meta.at + SIZE);
  if (!size || 4 + size + item.size > body.size) {
    write_back(who, item.size, now, &done);
    size = word_at(meta.at + SIZE);
  }
  done.stores += 3 + write_words(size, &item);
  store_word(body.at, (uint32_t)(size + item.size));
  store_word(meta.at + CHECKSUM, checksum(word_at(meta.at + CHECKSUM), item.at, item.size));
  store_word(meta.at + SIZE, (uint32_t)(size + item.size));
  note((struct Change){.who = who, .pair = {copy(pair->key), copy(pair->value)}});
  set(&openers[who], pair);
  keep(&openers[who]);
  return done;
}

// Printed text

static void say_changes(void) {
  say_number("changes ", change_count);
  for (size_t i = 0; i < change_count; i++) {
    say_number("\nchange ", i);
    say_number(" ", changes[i].who);
    if (changes[i].pack) say_number(" pack ", changes[i].now);
    else {
      say_hex(" put ", changes[i].pair.key.at, changes[i].pair.key.size);
      say_hex(" ", changes[i].pair.value.at, changes[i].pair.value.size);
      say(" 0");
    }
  }
  say("\n");
}

static void say_pairs(const struct Opener *opener) {
  say_number("\npairs ", opener->count);
  for (size_t i = 0; i < opener->count; i++) {
    const struct Pair *pair = &opener->pairs[i];
    say_pair(pair->key.at, pair->key.size, pair->value.at, pair->value.size);
  }
  say("\n");
}

// The script

static void refuse(size_t line) {
  printf("script %zu\n", line);
  exit(9);
}

static bool eat(const char **at, const char *word) {
  size_t size = strlen(word);
  if (strncmp(*at, word, size)) return false;
  *at += size;
  return true;
}

static uint32_t number(const char **at, size_t line) {
  uint64_t n = 0;
  const char *start = *at;
  for (; **at >= '0' && **at <= '9' && n <= UINT32_MAX; ++*at) n = 10 * n + (uint64_t)(**at - '0');
  if (*at == start || n > UINT32_MAX || (*start == '0' && *at > start + 1)) refuse(line);
  return (uint32_t)n;
}

static int digit(char c) {
  if (c >= '0' && c <= '9') return c - '0';
  if (c >= 'a' && c <= 'f') return c - 'a' + 10;
  if (c >= 'A' && c <= 'F') return c - 'A' + 10;
  return -1;
}

static void hex(const char **at, struct Bytes *into, size_t line) {
  into->size = 0;
  for (; digit((*at)[0]) >= 0 && digit((*at)[1]) >= 0; *at += 2) push_byte(into, (uint8_t)(16 * digit((*at)[0]) + digit((*at)[1])));
  if (!into->size) refuse(line);
}

static void begin(const char *at, size_t line, struct Call *call) {
  if (call->runs) refuse(line);
  call->runs = true;
  call->now = number(&at, line);
  call->put = eat(&at, " put ");
  if (!call->put && !eat(&at, " get ")) refuse(line);
  hex(&at, &call->pair.key, line);
  if (call->put) {
    if (!eat(&at, " u32 ")) refuse(line);
    call->pair.value.size = 0;
    push_length(&call->pair.value, number(&at, line));
    if (!eat(&at, " 0")) refuse(line);
  }
  if (*at) refuse(line);
}

// The call that runs is made and answered in so many steps. At the first the opener is cold, and loads the files whole.
static void step(size_t who, uint32_t steps) {
  struct Opener *opener = &openers[who];
  struct Call *call = &opener->call;
  struct Done done = {0};
  const struct Pair *found = NULL;
  size_t begun = change_count, looks = opener->warm ? 2 : 0, loads = catch_up(opener), locks = loads > looks || call->put;
  if (call->put) {
    loads++;
    done = put(who, &call->pair, call->now);
  } else found = find(opener, &call->pair.key);
  // loads, stores, growths, a lock and its unlock, and the reserve of a put
  if (steps < loads + done.stores + done.growths + 2 * locks + call->put) exit(1);
  say_number("answer ", who);
  say_hex(call->put ? " put " : " get ", call->pair.key.at, call->pair.key.size);
  if (call->put) {
    say_hex(" ", call->pair.value.at, call->pair.value.size);
    say(" 0");
  }
  say_number(" now ", call->now);
  say_number(" begun ", begun);
  say_number(" place ", change_count - call->put);
  say_number(" ended ", change_count);
  say_number(" loads ", loads);
  say_number(" stores ", done.stores);
  say_number(" locks ", locks);
  if (found) say_hex(" reply value ", found->value.at, found->value.size);
  else say(call->put ? " reply done" : " reply none");
  say("\n");
  call->runs = false;
}

static size_t opener_of(const char **at, size_t line) {
  uint32_t who = number(at, line);
  if (!who || who > opener_count) refuse(line);
  return who;
}

static void take(const char *at, size_t line) {
  if (!strcmp(at, "open leave")) {
    if (++opener_count > 9) refuse(line);
  } else if (eat(&at, "begin ")) {
    size_t who = opener_of(&at, line);
    if (!eat(&at, " ")) refuse(line);
    begin(at, line, &openers[who].call);
  } else if (eat(&at, "step ")) {
    size_t who = opener_of(&at, line);
    if (!eat(&at, " ")) refuse(line);
    uint32_t steps = number(&at, line);
    if (*at || !steps) refuse(line);
    if (openers[who].call.runs) step(who, steps);
  } else refuse(line);
}

static void play(char *script) {
  size_t line = 1;
  for (char *end; *script; script = end + 1, line++) {
    end = strchr(script, '\n');
    if (!end) refuse(line);
    *end = 0;
    if (*script && *script != '#') take(script, line);
  }
}

int main(int argc, char **argv) {
  if (argc != 3) return 2;
  body = file_of(argv[1], argv[2], "");
  meta = file_of(argv[1], argv[2], ".crc");
  if (body.size % PAGE || !body.size || body.size > LARGEST || meta.size % PAGE || !meta.size) return 14;
  struct Bytes script = read_all(STDIN_FILENO);
  push_byte(&script, 0);
  play((char *)script.at);
  struct Opener *reader = &openers[0];
  load(reader);
  say_changes();
  say_region(&body, &meta);
  say_pairs(reader);
  return write_text();
}
