#!/usr/bin/env python3
"""A reference model of the program: a second computation of what `dump` and `play` print.

    tests/reference/play.py DIR dump ID
    tests/reference/play.py DIR play ID < SCRIPT
    tests/reference/play.py --ahead DIR play ID < SCRIPT

The words are the program's own. With `--ahead` it plays what the program doesn't have yet: starts that show no whole image, the exclusive
lock of a read that met such an image, repairs, and what a handler answers to damage. The model was written from the rules of the format and
of the script language, not from the program, and shares no code with it. It prints what the program must print and ends with the status
that the program must end with (the table in README.md).
It doesn't model faults of reading and writing beyond what Python reports, nor want of memory.

What it takes on trust is Python's own: `zlib.crc32`, dictionaries, sorting of bytes.

The parts, in this order: spellings and payloads; the region (two files in memory, with the journal's count of events and the changes);
what a region shows; the calls of an opener, each a generator that yields one operation on the region after another; script lines; printed
text; the commands.
"""
from __future__ import annotations

import os
import re
import struct
import sys
import zlib
from dataclasses import dataclass, field
from typing import Any, Callable, Dict, Generator, Iterator, List, Optional, Set, Tuple

PAGE = 4096
LARGEST_DATA = 1 << 26
LARGEST_META = 1 << 16
LARGEST_SCRIPT = 1 << 26
MOST_LINES = 1 << 20
LONGEST_LINE = 1 << 16
MOST_STEPS = 1 << 20
MOST_HOLDS = 1000
MOST_OPENERS = 64
JOURNAL_LIMIT = 1 << 22
LAST_SEQUENCE = 0xFFFFFFFF

# words of the meta file
CHECKSUM, VERSION, SEQUENCE, RECORD_SIZE, LAST_SIZE, LAST_CHECKSUM, FLAGS_LOW, FLAGS_HIGH = 0, 1, 2, 7, 8, 9, 26, 27

# word of the data file that holds the payload's size
HEADER = 0

# a size that fits no file
CLOSED = 0xFFFFFFFF

# what a payload that isn't empty begins with when this program's rules write it
PREAMBLE = b'\xff\xff\xff\x07'


class Ended(Exception):
    """The command ends without its text: with a status, and with a line that names the cause."""

    def __init__(self, status: int, line: str):
        super().__init__(line)
        self.status = status
        self.line = line


class JournalFull(Exception):
    """The journal has no place for the events asked."""


class Busy(Exception):
    """Another opener, the least of them, holds a lock that stands against the one asked."""

    def __init__(self, holder: int):
        super().__init__(holder)
        self.holder = holder


# ------------------------------------------------------------------------------------------------------------------------------------
# Spellings and payloads


class NoItems(Exception):
    """The bytes are no payload in the sense of the format."""


def varint(number: int) -> bytes:
    """Seven bits a byte, least significant group first, the high bit set on all bytes but the last."""
    spelled = bytearray()
    while number >= 0x80:
        spelled.append(number & 0x7F | 0x80)
        number >>= 7
    spelled.append(number)
    return bytes(spelled)


def read_length(data: bytes, at: int) -> Tuple[int, int]:
    """The length that is spelled from `at` on, and the place behind it. One to five bytes, below 2^31."""
    number = 0
    for count in range(5):
        if at + count >= len(data):
            raise NoItems
        byte = data[at + count]
        number |= (byte & 0x7F) << 7 * count
        if byte < 0x80:
            if number >= 1 << 31:
                raise NoItems
            return number, at + count + 1
    raise NoItems


def read_field(data: bytes, at: int) -> Tuple[bytes, int]:
    size, at = read_length(data, at)
    if at + size > len(data):
        raise NoItems
    return data[at:at + size], at + size


def items_of(payload: bytes) -> Iterator[Tuple[bytes, bytes]]:
    """Key and value of each item. An empty payload has none; another begins with a length that says nothing."""
    if payload:
        _, at = read_length(payload, 0)
        yield from items_from(payload, at)


def items_from(payload: bytes, at: int) -> Iterator[Tuple[bytes, bytes]]:
    """Key and value of each item from that place on, to the payload's end."""
    while at < len(payload):
        key, at = read_field(payload, at)
        if not key:
            continue
        value, at = read_field(payload, at)
        yield key, value


@dataclass(frozen=True)
class Held:
    """What a map has for a key."""
    value: bytes
    expiry: int

    def live_at(self, now: int) -> bool:
        return self.expiry == 0 or self.expiry > now


Pairs = Dict[bytes, Held]


def map_of(payload: bytes, expires: bool) -> Pairs:
    """The map of a whole payload."""
    return with_items({}, items_of(payload), expires)


def with_items(pairs: Pairs, items: Iterator[Tuple[bytes, bytes]], expires: bool) -> Pairs:
    """The map with these items put in. Later items win, an empty value removes its key. With expiry the last four bytes of a value are its
    second."""
    pairs = dict(pairs)
    for key, value in items:
        if not value:
            pairs.pop(key, None)
        elif not expires:
            pairs[key] = Held(value, 0)
        elif len(value) <= 4:
            raise NoItems
        else:
            pairs[key] = Held(value[:-4], int.from_bytes(value[-4:], 'little'))
    return pairs


def greedy_pairs(payload: bytes, expires: bool) -> Pairs:
    """The map of the items that a payload begins with, as far as it can be read; a value with no room for its expiry is passed over."""
    read: List[Tuple[bytes, bytes]] = []
    try:
        for key, value in items_of(payload):
            read.append((key, value))
    except NoItems:
        pass
    return with_items({}, ((key, value) for key, value in read if not expires or not 1 <= len(value) <= 4), expires)


def item(key: bytes, held: Optional[Held], expires: bool) -> bytes:
    """The bytes of an item; without a value it is a removal, which has no expiry."""
    value = b''
    if held:
        value = held.value + (held.expiry.to_bytes(4, 'little') if expires else b'')
    return varint(len(key)) + key + varint(len(value)) + value


def packed(pairs: Pairs, expires: bool) -> bytes:
    return PREAMBLE + b''.join(item(key, pairs[key], expires) for key in sorted(pairs))


def grown_size(size: int, need: int, pairs: int, file_size: int) -> int:
    """The file's size for a packed payload of `size` bytes of so many pairs, and `need` bytes behind it. They fit the largest file."""
    wanted = 4 + size + need
    average = wanted // max(1, pairs)
    room = average * max(8, (pairs + 1) // 2)
    while wanted + room >= file_size and file_size < LARGEST_DATA:
        file_size = min(2 * file_size, LARGEST_DATA)
    return file_size


# ------------------------------------------------------------------------------------------------------------------------------------
# The region


@dataclass(frozen=True)
class Change:
    maker: int
    act: str


@dataclass(frozen=True)
class Torn:
    """A store of a payload word in whose midst its opener dies."""
    word: int
    new: int
    bits: int


def filled_up(data: bytes) -> bytearray:
    """A file counts as followed by zeros up to whole pages, at least one."""
    pages = max(1, -(-len(data) // PAGE))
    return bytearray(data.ljust(pages * PAGE, b'\0'))


class Region:
    """Two files in memory, the changes made in them, how many events the journal has, and for how many each opener has a place. `mover` is
    the opener whose operation it is."""

    def __init__(self, data: bytes, meta: bytes):
        self.data = filled_up(data)
        self.meta = filled_up(meta)
        self.changes: List[Change] = []
        self.events = 0
        self.kept: Dict[int, int] = {}
        self.mover = 0
        self.sharers: Set[int] = set()
        self.exclusive: Optional[int] = None

    # What may be read at any moment

    def data_word(self, word: int) -> int:
        return struct.unpack_from('<I', self.data, 4 * word)[0]

    def meta_word(self, word: int) -> int:
        return struct.unpack_from('<I', self.meta, 4 * word)[0]

    def flags(self) -> int:
        return self.meta_word(FLAGS_LOW) | self.meta_word(FLAGS_HIGH) << 32

    def payload(self, size: int) -> Optional[bytes]:
        """The payload of that size, or None where it doesn't fit."""
        return bytes(self.data[4:4 + size]) if 4 + size <= len(self.data) else None

    # The journal's places

    def keep(self, places: int, coming: int = 0) -> None:
        """Keeps so many places, and sees that there is one for so many events that come at once."""
        if self.events + sum(self.kept.values()) + places + coming > JOURNAL_LIMIT:
            raise JournalFull
        self.kept[self.mover] = self.kept.get(self.mover, 0) + places

    def admit(self, who: int) -> None:
        """A place for the opener's death."""
        self.mover = who
        self.keep(1)

    # The operations of an opener, each one step of a call

    def size(self) -> int:
        return len(self.data)

    def load_data(self, word: int) -> int:
        return self.data_word(word)

    def load_meta(self, word: int) -> int:
        return self.meta_word(word)

    def peek(self, word: int) -> int:
        return self.meta_word(word)

    def lock_shared(self, who: int) -> None:
        self.see_free(set() if self.exclusive is None else {self.exclusive})
        self.sharers.add(who)

    def lock_exclusive(self, who: int) -> None:
        self.see_free(self.sharers | (set() if self.exclusive is None else {self.exclusive}))
        self.exclusive = who

    def see_free(self, holders: Set[int]) -> None:
        """No holder stands against a lock. Then it is taken: a place is kept for its unlock."""
        if holders:
            raise Busy(min(holders))
        self.keep(1, coming=1)
        self.events += 1

    def unlock(self, who: int) -> None:
        self.leave(who)
        self.use_place()

    def leave(self, who: int) -> None:
        self.sharers.discard(who)
        if self.exclusive == who:
            self.exclusive = None

    def reserve(self, events: int) -> None:
        self.keep(events)

    def grow(self, size: int) -> None:
        self.use_place()
        self.data.extend(bytes(size - len(self.data)))

    def store_data(self, word: int, value: int, change: Optional[Change] = None) -> None:
        self.store(self.data, word, value, change)

    def store_meta(self, word: int, value: int, change: Optional[Change] = None) -> None:
        self.store(self.meta, word, value, change)

    def store(self, file: bytearray, word: int, value: int, change: Optional[Change]) -> None:
        """A store may be the one that commits a change."""
        self.use_place()
        struct.pack_into('<I', file, 4 * word, value)
        if change:
            self.changes.append(change)

    def use_place(self) -> None:
        self.kept[self.mover] -= 1
        self.events += 1

    # A death

    def die(self, who: int, torn: Optional[Torn]) -> None:
        """The opener's lock is given up, and its places. A word that it was storing keeps the bytes on which old and new agree, and has those
        of the bits for the others."""
        if torn:
            old = self.data[4 * torn.word:4 * torn.word + 4]
            new, bits = struct.pack('<I', torn.new), struct.pack('<I', torn.bits)
            self.data[4 * torn.word:4 * torn.word + 4] = bytes(o if o == n else b for o, n, b in zip(old, new, bits))
        self.leave(who)
        del self.kept[who]
        self.events += 1


# ------------------------------------------------------------------------------------------------------------------------------------
# What a region shows


@dataclass(frozen=True)
class Shown:
    text: str
    pairs: Pairs
    whole: bool


def check_record(region: Region) -> None:
    """Versions 3 and 4 are accepted with flags 0 and 1, and version 0 where the store is fresh."""
    version, flags = region.meta_word(VERSION), region.flags()
    if version == 0:
        used = [region.data_word(HEADER), region.meta_word(CHECKSUM), region.meta_word(RECORD_SIZE), flags]
        if any(used):
            raise Ended(10, 'version 0')
    elif version not in (3, 4):
        raise Ended(10, f'version {version}')
    elif flags > 1:
        raise Ended(10, f'flags {flags}')


def image_shown(region: Region) -> Tuple[str, Optional[bytes]]:
    """Which of the three images stands by its checksum, and its payload; or the kind of damage, and None."""
    if region.meta_word(VERSION) == 0:
        return 'whole', b''
    record, header = region.meta_word(RECORD_SIZE), region.data_word(HEADER)
    last, last_checksum = region.meta_word(LAST_SIZE), region.meta_word(LAST_CHECKSUM)
    checksum = region.meta_word(CHECKSUM)
    candidates = [('whole', record, checksum), ('header', header, checksum), ('last', last, last_checksum)]
    for name, size, wanted in candidates:
        payload = region.payload(size)
        if payload is not None and zlib.crc32(payload) == wanted:
            return name, payload
    return 'checksum' if region.payload(record) is not None else 'length', None


def shown(region: Region) -> Shown:
    name, payload = image_shown(region)
    if payload is not None:
        try:
            pairs = map_of(payload, expires=region.flags() == 1)
            return Shown(f'{name} {len(payload)}', pairs, name == 'whole')
        except NoItems:
            name = 'content'
    return Shown(f'damaged {name}', {}, False)


# ------------------------------------------------------------------------------------------------------------------------------------
# The calls of an opener

# An operation on the region, by its method and arguments. A call yields one after another and gets what each answers.
Operation = Tuple[Any, ...]
Steps = Generator[Operation, Any, Any]


@dataclass(frozen=True)
class Call:
    name: str
    key: bytes = b''
    value: bytes = b''
    seconds: int = 0


@dataclass(frozen=True)
class Replied:
    """How a call ends that is answered: its reply, and the number of changes before it in the history."""
    reply: str
    place: int


@dataclass(frozen=True)
class Stopped:
    """How a call ends that is stopped."""
    reason: str


# What the program says of an image that isn't whole, and that it doesn't repair yet.
NOT_YET = 'not yet'


class Stop(Exception):
    def __init__(self, reason: str):
        super().__init__(reason)
        self.reason = reason


@dataclass
class Image:
    """What a warm opener keeps of its last load or store."""
    pairs: Pairs
    payload: bytearray
    checksum: int
    sequence: int
    version: int
    expires: bool
    file_size: int


@dataclass
class Seen:
    """What a load under a lock has seen: which image stands, or which damage there is, and the image, an empty one where there is damage."""
    name: str
    image: Image
    loaded: bytearray = field(default_factory=bytearray)
    record_size: int = 0

    def is_whole(self) -> bool:
        return self.name == 'whole'


@dataclass
class Running:
    """A call between its begin and its end."""
    call: Call
    now: int
    begun: int
    steps: Steps
    next: Optional[Operation] = None
    started: bool = False
    loads: int = 0
    stores: int = 0
    locks: int = 0


class Refused(Exception):
    """A call that may not begin."""


@dataclass
class Opener:
    """One opener. Cold where it keeps no image, as at first and after each stop."""
    who: int
    region: Region
    strategy: str = 'leave'
    image: Optional[Image] = None
    holds: int = 0
    running: Optional[Running] = None
    alive: bool = True
    ahead: bool = False

    def begin(self, call: Call, now: int) -> None:
        if self.running:
            raise Refused('a call runs')
        if call.name in ('get', 'remove', 'put') and not call.key:
            raise Refused('empty key')
        if call.name == 'put' and not call.value:
            raise Refused('empty value')
        if call.name == 'release' and self.holds == 0:
            raise Refused('not held')
        if call.name == 'hold' and self.holds == MOST_HOLDS:
            raise Refused('too deep')
        self.running = Running(call, now, len(self.region.changes), self.steps_of(call, now))

    def step(self) -> Optional[str]:
        """Makes the next operation of the call that runs. A line of text where the call ended with it or has to wait, else None."""
        running = self.running
        self.region.mover = self.who
        try:
            self.look_ahead()
            method, *arguments = running.next
            answered = method(*arguments)
            self.count(running, method.__name__)
            running.next = running.steps.send(answered)
        except Busy as busy:
            return f'blocked {self.who} by {busy.holder}'
        except StopIteration as end:
            self.running = None
            return self.end_text(running, end.value)
        return None

    def look_ahead(self) -> None:
        """The next operation of the call that runs, also before its first."""
        if not self.running.started:
            self.running.started = True
            self.running.next = next(self.running.steps)

    def die(self, bits: Optional[int]) -> None:
        """The opener dies, within its next operation where bits are given and that stores a word of the payload."""
        torn = None
        if bits is not None and self.running:
            try:
                self.look_ahead()
                method, *arguments = self.running.next
                if method == self.region.store_data and arguments[0] != HEADER:
                    torn = Torn(arguments[0], arguments[1], bits)
            except StopIteration:
                pass
        self.region.die(self.who, torn)
        self.running = None
        self.alive = False

    @staticmethod
    def count(running: Running, operation: str) -> None:
        if operation in ('size', 'load_data', 'load_meta', 'peek'):
            running.loads += 1
        elif operation in ('store_data', 'store_meta'):
            running.stores += 1
        elif operation in ('lock_shared', 'lock_exclusive'):
            running.locks += 1

    def end_text(self, running: Running, end: Any) -> str:
        if isinstance(end, Stopped):
            if end.reason == NOT_YET:
                raise Ended(17, NOT_YET)
            return f'stopped {self.who} {end.reason}'
        counts = f'loads {running.loads} stores {running.stores} locks {running.locks}'
        places = f'begun {running.begun} place {end.place} ended {len(self.region.changes)}'
        return f'answer {self.who} {call_text(running.call)} now {running.now} {places} {counts} reply {end.reply}'

    # Each call as its operations. A generator returns Replied or Stopped.

    def steps_of(self, call: Call, now: int) -> Steps:
        if call.name == 'hold':
            return self.hold()
        if call.name == 'release':
            return self.release()
        if call.name in ('get', 'keys', 'count', 'sync'):
            return self.read(call, now)
        return self.write(call, now)

    def hold(self) -> Steps:
        if self.holds == 0:
            yield (self.region.lock_exclusive, self.who)
        self.holds += 1
        return Replied('done', len(self.region.changes))

    def release(self) -> Steps:
        self.holds -= 1
        if self.holds == 0:
            yield (self.region.unlock, self.who)
        return Replied('done', len(self.region.changes))

    def read(self, call: Call, now: int) -> Steps:
        """A warm opener that finds its checksum and sequence again answers from what it keeps, without a lock. One that loads and sees no
        whole image takes the exclusive lock in the shared one's place, loads anew, and repairs what it sees then."""
        load, place = yield from self.notice()
        if not load:
            return Replied(reply_of(call, self.image.pairs, now), place)
        if not self.holds:
            yield (self.region.lock_shared, self.who)
        seen = yield from load()
        raised = self.ahead and not seen.is_whole() and not self.holds
        if raised:
            yield (self.region.unlock, self.who)
            yield (self.region.lock_exclusive, self.who)
            seen = yield from self.full_load()
        try:
            yield from self.repair(seen)
            end: Any = Replied(reply_of(call, self.image.pairs, now), len(self.region.changes))
        except Stop as stop:
            self.image = None
            end = Stopped(stop.reason)
        if raised:
            yield (self.region.unlock, self.who)
            yield (self.region.lock_shared, self.who)
        if not self.holds:
            yield (self.region.unlock, self.who)
        return end

    def write(self, call: Call, now: int) -> Steps:
        """Under the exclusive lock: the image, the refusals, the events. A stop is answered after the lock is left."""
        if not self.holds:
            yield (self.region.lock_exclusive, self.who)
        load, _ = yield from self.notice()
        try:
            if load:
                seen = yield from load()
                yield from self.repair(seen)
            place = yield from self.change(call, now)
            end = Replied('done', place)
        except Stop as stop:
            self.image = None
            end = Stopped(stop.reason)
        if not self.holds:
            yield (self.region.unlock, self.who)
        return end

    def repair(self, seen: Seen) -> Steps:
        """Under the exclusive lock, what isn't whole becomes so; a whole image is kept as it is. Where the handler leaves damage as it is,
        and where the sequence can't be raised, the call is stopped. The program, which doesn't repair yet, ends the play there."""
        self.image = seen.image
        if seen.is_whole():
            return
        if not self.ahead:
            raise Stop(NOT_YET)
        if seen.name == 'header':
            events: List[Operation] = [(self.region.store_meta, RECORD_SIZE, len(seen.image.payload))]
        elif seen.image.sequence == LAST_SEQUENCE:
            raise Stop('sequence-end')
        elif seen.name == 'last':
            events = self.restore_events()
        elif self.strategy == 'discard':
            events = self.discard_events()
        elif self.strategy == 'recover':
            payload = yield from self.readable(seen)
            events = self.recover_events(payload)
        else:
            raise Stop(f'damaged {seen.name}')
        yield (self.region.reserve, len(events))
        for event in events:
            yield event

    def restore_events(self) -> List[Operation]:
        """The last confirmed image becomes the one of header and record."""
        image = self.image
        image.sequence += 1
        size = len(image.payload)
        return [
            (self.region.store_meta, SEQUENCE, image.sequence),
            (self.region.store_data, HEADER, size),
            (self.region.store_meta, RECORD_SIZE, size),
            (self.region.store_meta, CHECKSUM, image.checksum, Change(self.who, f'restored {len(image.pairs)}')),
        ]

    def discard_events(self) -> List[Operation]:
        """The store begins anew, without a pair."""
        self.image.sequence += 1
        return [
            (self.region.store_meta, SEQUENCE, self.image.sequence),
            (self.region.store_data, HEADER, 0),
            (self.region.store_meta, RECORD_SIZE, 0),
            (self.region.store_meta, CHECKSUM, 0, Change(self.who, 'discarded')),
            (self.region.store_meta, LAST_SIZE, 0),
            (self.region.store_meta, LAST_CHECKSUM, 0),
        ]

    def readable(self, seen: Seen) -> Steps:
        """The payload of the record's size where it fits, else all bytes of the file behind the header."""
        size = seen.record_size
        if 4 + size > seen.image.file_size:
            size = seen.image.file_size - 4
        seen.loaded += yield from self.words(len(seen.loaded) // 4, size, whole=True)
        return bytes(seen.loaded[:size])

    def recover_events(self, payload: bytes) -> List[Operation]:
        """The pairs that can be read are written anew. All three sizes are closed before the file grows and before the first word."""
        image = self.image
        pairs = greedy_pairs(payload, image.expires)
        new = packed(pairs, image.expires)
        size, checksum = len(new), zlib.crc32(new)
        first, file_size = self.first_events(size, 0, len(pairs), image.file_size)
        growth, sequence = first[:-1], first[-1]
        events = [
            sequence,
            (self.region.store_meta, RECORD_SIZE, CLOSED),
            (self.region.store_data, HEADER, CLOSED),
            (self.region.store_meta, LAST_SIZE, CLOSED),
        ]
        events += growth + self.word_stores(new, 0)
        events += [
            (self.region.store_meta, CHECKSUM, checksum),
            (self.region.store_meta, LAST_CHECKSUM, checksum),
            (self.region.store_data, HEADER, size, Change(self.who, f'recovered {len(pairs)}')),
            (self.region.store_meta, RECORD_SIZE, size),
            (self.region.store_meta, LAST_SIZE, size),
        ]
        self.image = Image(pairs, bytearray(new), checksum, image.sequence + 1, image.version, image.expires, file_size)
        return events

    def notice(self) -> Steps:
        """The load that brings the image, and the number of changes at the look at the checksum. None is wanted where both words are the
        kept ones, and a partial one where the sequence alone is. A cold opener doesn't look."""
        if self.image is None:
            return self.full_load, None
        checksum = yield (self.region.peek, CHECKSUM)
        place = len(self.region.changes)
        sequence = yield (self.region.peek, SEQUENCE)
        if sequence != self.image.sequence:
            return self.full_load, place
        return (None if checksum == self.image.checksum else self.partial_load), place

    def partial_load(self) -> Steps:
        """The image to which the kept one goes on, else what a full load sees."""
        image = yield from self.longer_image()
        if image is None:
            return (yield from self.full_load())
        return Seen('whole', image)

    def longer_image(self) -> Steps:
        """Three words of the record, the file's size where the record's doesn't fit the kept one, and the words from the one on in which
        the kept payload ends. None where the record's image isn't the kept one with items appended to it."""
        kept = self.image
        checksum = yield (self.region.load_meta, CHECKSUM)
        sequence = yield (self.region.load_meta, SEQUENCE)
        size = yield (self.region.load_meta, RECORD_SIZE)
        old_size, file_size = len(kept.payload), kept.file_size
        if sequence != kept.sequence:
            return None
        if 4 + size > file_size:
            file_size = yield (self.region.size,)
        if size < old_size or 4 + size > file_size:
            return None
        front = old_size // 4 * 4
        payload = kept.payload[:front] + (yield from self.words(front // 4, size))
        if zlib.crc32(payload[old_size:], kept.checksum) != checksum:
            return None
        try:
            pairs = with_items(kept.pairs, items_from(bytes(payload), old_size), kept.expires)
        except NoItems:
            return None
        return Image(pairs, payload, checksum, sequence, kept.version, kept.expires, file_size)

    def full_load(self) -> Steps:
        """Ten loads, and then the payload's words, as many as are wanted for the first of three images that agrees with its checksum."""
        file_size = yield (self.region.size,)
        version = yield (self.region.load_meta, VERSION)
        flags = yield (self.region.load_meta, FLAGS_LOW)
        yield (self.region.load_meta, FLAGS_HIGH)
        checksum = yield (self.region.load_meta, CHECKSUM)
        sequence = yield (self.region.load_meta, SEQUENCE)
        size = yield (self.region.load_meta, RECORD_SIZE)
        last = yield (self.region.load_meta, LAST_SIZE)
        last_checksum = yield (self.region.load_meta, LAST_CHECKSUM)
        header = yield (self.region.load_data, HEADER)
        expires = flags == 1

        def image_of(payload: bytes, pairs: Pairs) -> Image:
            return Image(pairs, bytearray(payload), zlib.crc32(payload), sequence, version, expires, file_size)

        loaded = bytearray()
        for name, wanted, agreed in [('whole', size, checksum), ('header', header, checksum), ('last', last, last_checksum)]:
            if 4 + wanted > file_size:
                continue
            loaded += yield from self.words(len(loaded) // 4, wanted, whole=True)
            payload = bytes(loaded[:wanted])
            if zlib.crc32(payload) == agreed:
                try:
                    return Seen(name, image_of(payload, map_of(payload, expires)), loaded, size)
                except NoItems:
                    return Seen('content', image_of(b'', {}), loaded, size)
        return Seen('checksum' if 4 + size <= file_size else 'length', image_of(b'', {}), loaded, size)

    def words(self, first: int, size: int, whole: bool = False) -> Steps:
        """The bytes of the payload of that size, from its word of that number on, by one load a word; or all bytes of these words."""
        loaded = bytearray()
        for at in range(first, -(-size // 4)):
            word = yield (self.region.load_data, 1 + at)
            loaded += word.to_bytes(4, 'little')
        return loaded if whole else loaded[:size - 4 * first]

    def change(self, call: Call, now: int) -> Steps:
        """Refusals and events of a change, on the image that stands. The number of changes before its own."""
        file_size = yield (self.region.size,)
        self.image.file_size = file_size
        if call.name == 'clear':
            events = self.image_events({}, 0, file_size, Change(self.who, 'clear'))
        elif call.name in ('enable', 'disable'):
            events = self.switch_events(call, now, file_size)
        else:
            events = self.item_events(call, now, file_size)
        yield (self.region.reserve, len(events))
        for event in events:
            yield event
        return len(self.region.changes) - 1

    def item_events(self, call: Call, now: int, file_size: int) -> List[Operation]:
        """A put or remove appends its item. Where the payload is empty or the item doesn't fit, all pairs that haven't expired are written
        anew before."""
        held = None
        if call.name == 'put':
            held = Held(call.value, self.expiry_of(call, now))
        added = item(call.key, held, self.image.expires)
        before: List[Operation] = []
        size = len(self.image.payload)
        if size == 0 or 4 + size + len(added) > file_size:
            live = {key: held for key, held in self.image.pairs.items() if held.live_at(now)}
            before = self.image_events(live, len(added), file_size, Change(self.who, f'pack {now}'))
        act = f'put {hex_text(call.key)} {hex_text(call.value)} {held.expiry}' if held else f'remove {hex_text(call.key)}'
        return before + self.append_events(call.key, held, added, Change(self.who, act))

    def expiry_of(self, call: Call, now: int) -> int:
        if call.seconds == 0:
            return 0
        if not self.image.expires:
            raise Stop('expiry-off')
        if now + call.seconds > 0xFFFFFFFF:
            raise Stop('expiry-range')
        return now + call.seconds

    def append_events(self, key: bytes, held: Optional[Held], added: bytes, change: Change) -> List[Operation]:
        """The words from the first that the item touches; header, checksum, record's size. The image is what stands afterwards."""
        image = self.image
        first = len(image.payload) // 4
        image.payload += added
        image.checksum = zlib.crc32(added, image.checksum)
        if held:
            image.pairs[key] = held
        else:
            image.pairs.pop(key, None)
        size = len(image.payload)
        return self.word_stores(image.payload, first) + [
            (self.region.store_data, HEADER, size),
            (self.region.store_meta, CHECKSUM, image.checksum, change),
            (self.region.store_meta, RECORD_SIZE, size),
        ]

    def image_events(self, pairs: Pairs, need: int, file_size: int, change: Change) -> List[Operation]:
        """A new image of these pairs: growth, sequence, version where there is none, words, header, record. It becomes the last confirmed
        one too."""
        image = self.image
        payload = packed(pairs, image.expires)
        events, new_file = self.first_events(len(payload), need, len(pairs), file_size)
        size, checksum = len(payload), zlib.crc32(payload)
        if image.version == 0:
            events.append((self.region.store_meta, VERSION, 3))
        events += self.word_stores(payload, 0)
        events += [
            (self.region.store_data, HEADER, size),
            (self.region.store_meta, CHECKSUM, checksum, change),
            (self.region.store_meta, RECORD_SIZE, size),
            (self.region.store_meta, LAST_SIZE, size),
            (self.region.store_meta, LAST_CHECKSUM, checksum),
        ]
        self.image = Image(pairs, bytearray(payload), checksum, image.sequence + 1, image.version or 3, image.expires, new_file)
        return events

    def first_events(self, size: int, need: int, pairs: int, file_size: int) -> Tuple[List[Operation], int]:
        """What comes first where an image of that many bytes is put in the old one's place: a growth, where it is needed, and the sequence;
        and the file's size afterwards."""
        wanted = 4 + size + need
        if wanted > LARGEST_DATA:
            raise Stop(f'full {wanted} {LARGEST_DATA}')
        if self.image.sequence == LAST_SEQUENCE:
            raise Stop('sequence-end')
        new_file = grown_size(size, need, pairs, file_size)
        events: List[Operation] = [(self.region.grow, new_file)] if new_file > file_size else []
        return events + [(self.region.store_meta, SEQUENCE, self.image.sequence + 1)], new_file

    def switch_events(self, call: Call, now: int, file_size: int) -> List[Operation]:
        """The other flag, and an image of the pairs under it. All three sizes are closed before the first word of the payload, and the
        header opens them again."""
        pairs, act = self.enabled(call, now) if call.name == 'enable' else self.disabled(now)
        expires = call.name == 'enable'
        payload = packed(pairs, expires)
        size, checksum = len(payload), zlib.crc32(payload)
        events, new_file = self.first_events(size, 0, len(pairs), file_size)
        events += [
            (self.region.store_meta, VERSION, 4),
            (self.region.store_meta, RECORD_SIZE, CLOSED),
            (self.region.store_data, HEADER, CLOSED),
            (self.region.store_meta, LAST_SIZE, CLOSED),
        ]
        events += self.word_stores(payload, 0)
        events += [
            (self.region.store_meta, FLAGS_LOW, int(expires)),
            (self.region.store_meta, CHECKSUM, checksum),
            (self.region.store_meta, LAST_CHECKSUM, checksum),
            (self.region.store_data, HEADER, size, Change(self.who, act)),
            (self.region.store_meta, RECORD_SIZE, size),
            (self.region.store_meta, LAST_SIZE, size),
        ]
        self.image = Image(pairs, bytearray(payload), checksum, self.image.sequence + 1, 4, expires, new_file)
        return events

    def enabled(self, call: Call, now: int) -> Tuple[Pairs, str]:
        """Each pair lives for so many seconds more, or for ever where that is 0."""
        if self.image.expires:
            raise Stop('already-on')
        if now + call.seconds > 0xFFFFFFFF:
            raise Stop('expiry-range')
        expiry = now + call.seconds if call.seconds else 0
        return {key: Held(held.value, expiry) for key, held in self.image.pairs.items()}, f'enable {now} {call.seconds}'

    def disabled(self, now: int) -> Tuple[Pairs, str]:
        """What has expired is dropped, and the other pairs live for ever."""
        if not self.image.expires:
            raise Stop('already-off')
        return {key: Held(held.value, 0) for key, held in self.image.pairs.items() if held.live_at(now)}, f'disable {now}'

    def word_stores(self, payload: bytes | bytearray, first: int) -> List[Operation]:
        """Stores of the payload's words from the word of that number on; the bytes behind the payload's end in its last word are 0."""
        words = bytes(payload[4 * first:])
        words += bytes(-len(words) % 4)
        return [(self.region.store_data, 1 + first + at, word) for at, (word,) in enumerate(struct.iter_unpack('<I', words))]


def reply_of(call: Call, pairs: Pairs, now: int) -> str:
    if call.name == 'get':
        held = pairs.get(call.key)
        return f'value {hex_text(held.value)}' if held and held.live_at(now) else 'none'
    if call.name == 'sync':
        return 'done'
    live = sorted(key for key, held in pairs.items() if held.live_at(now))
    if call.name == 'count':
        return f'count {len(live)}'
    return ' '.join([f'keys {len(live)}'] + [hex_text(key) for key in live])


# ------------------------------------------------------------------------------------------------------------------------------------
# Script lines


class BadLine(Exception):
    """A line that is none of the grammar."""


@dataclass(frozen=True)
class Open:
    strategy: str


@dataclass(frozen=True)
class Begin:
    who: int
    now: int
    call: Call


@dataclass(frozen=True)
class Step:
    who: int
    count: int


@dataclass(frozen=True)
class Die:
    who: int
    bits: Optional[int]


def integer(word: bytes, low: int, high: int) -> int:
    """Decimal without needless zeros, with a minus where the range has negatives; minus zero is none."""
    if not re.fullmatch(rb'0|-?[1-9][0-9]{0,19}', word):
        raise BadLine
    number = int(word)
    if not low <= number <= high:
        raise BadLine
    return number


def number(word: bytes) -> int:
    return integer(word, 0, 0xFFFFFFFF)


def hex_bytes(word: bytes) -> bytes:
    """An even, positive number of hexadecimal digits of either case, or a dash for no bytes."""
    if word == b'-':
        return b''
    if not re.fullmatch(rb'([0-9A-Fa-f]{2})+', word):
        raise BadLine
    return bytes.fromhex(word.decode('ascii'))


def encode_bool(word: bytes) -> bytes:
    if word not in (b'true', b'false'):
        raise BadLine
    return b'\x01' if word == b'true' else b'\x00'


def encode_integer(low: int, high: int) -> Callable[[bytes], bytes]:
    """A negative number is taken as its two's complement in 64 bits."""
    return lambda word: varint(integer(word, low, high) % (1 << 64))


def encode_sized(word: bytes) -> bytes:
    data = hex_bytes(word)
    return varint(len(data)) + data


ENCODERS: Dict[bytes, Callable[[bytes], bytes]] = {
    b'bool': encode_bool,
    b'i32': encode_integer(-1 << 31, (1 << 31) - 1),
    b'u32': encode_integer(0, (1 << 32) - 1),
    b'i64': encode_integer(-1 << 63, (1 << 63) - 1),
    b'u64': encode_integer(0, (1 << 64) - 1),
    b'text': encode_sized,
    b'blob': encode_sized,
    b'raw': hex_bytes,
}


def parse_call(words: List[bytes]) -> Call:
    name = words[0]
    if name in (b'get', b'remove') and len(words) == 2:
        return Call(name.decode(), key=hex_bytes(words[1]))
    if name == b'put' and len(words) == 5 and words[2] in ENCODERS:
        return Call('put', hex_bytes(words[1]), ENCODERS[words[2]](words[3]), number(words[4]))
    if name == b'enable' and len(words) == 2:
        return Call('enable', seconds=number(words[1]))
    if name in (b'clear', b'keys', b'count', b'disable', b'hold', b'release', b'sync') and len(words) == 1:
        return Call(name.decode())
    raise BadLine


def parse_line(line: bytes) -> Any:
    """Open, Begin, Step or Die; None for an empty line and for a comment. Words are separated by one space."""
    if not line or line.startswith(b'#'):
        return None
    words = line.split(b' ')
    if words[0] == b'open' and len(words) == 2 and words[1] in (b'discard', b'recover', b'leave'):
        return Open(words[1].decode())
    if words[0] == b'begin' and len(words) >= 4:
        return Begin(number(words[1]), number(words[2]), parse_call(words[3:]))
    if words[0] == b'step' and len(words) == 3:
        return Step(number(words[1]), integer(words[2], 1, MOST_STEPS))
    if words[0] == b'die' and len(words) in (2, 3):
        return Die(number(words[1]), bits_of(words[2]) if len(words) == 3 else None)
    raise BadLine


def bits_of(word: bytes) -> int:
    """Eight hexadecimal digits of either case, the most significant first."""
    if not re.fullmatch(rb'[0-9A-Fa-f]{8}', word):
        raise BadLine
    return int(word, 16)


# ------------------------------------------------------------------------------------------------------------------------------------
# Printed text


def hex_text(data: bytes) -> str:
    return data.hex() or '-'


def call_text(call: Call) -> str:
    """A put is printed with its encoded value."""
    if call.name == 'put':
        return f'put {hex_text(call.key)} {hex_text(call.value)} {call.seconds}'
    if call.name in ('get', 'remove'):
        return f'{call.name} {hex_text(call.key)}'
    if call.name == 'enable':
        return f'enable {call.seconds}'
    return call.name


def changes_text(changes: List[Change]) -> List[str]:
    return [f'changes {len(changes)}'] + [f'change {at} {change.maker} {change.act}' for at, change in enumerate(changes)]


def region_text(region: Region) -> List[str]:
    meta = region.meta_word
    now = shown(region)
    lines = [
        f'region data {len(region.data)} version {meta(VERSION)} sequence {meta(SEQUENCE)} flags {region.flags()}',
        f'sizes header {region.data_word(HEADER)} record {meta(RECORD_SIZE)} last {meta(LAST_SIZE)}',
        f'checksums record {meta(CHECKSUM):08x} last {meta(LAST_CHECKSUM):08x}',
        f'shown {now.text}',
        f'pairs {len(now.pairs)}',
    ]
    return lines + [f'pair {hex_text(key)} {hex_text(held.value)} {held.expiry}' for key, held in sorted(now.pairs.items(), key=lambda pair: pair[0])]


# ------------------------------------------------------------------------------------------------------------------------------------
# The command


@dataclass
class Player:
    """A script played on a region, line by line. What isn't whole is repaired only ahead of the program."""
    region: Region
    ahead: bool = False
    openers: List[Opener] = field(default_factory=list)
    lines: List[str] = field(default_factory=list)

    def play(self, script: bytes) -> None:
        for at, line in enumerate(numbered_lines(script), 1):
            try:
                if line is None or at > MOST_LINES:
                    raise BadLine
                self.play_line(parse_line(line))
            except (BadLine, Refused):
                raise Ended(9, f'script {at}') from None
            except JournalFull:
                raise Ended(16, f'journal {at}') from None

    def play_line(self, line: Any) -> None:
        if isinstance(line, Open):
            self.open(line.strategy)
        elif isinstance(line, Begin):
            self.opener_of(line.who).begin(line.call, line.now)
        elif isinstance(line, Step):
            self.step(self.opener_of(line.who), line.count)
        elif isinstance(line, Die):
            self.opener_of(line.who).die(line.bits)

    def open(self, strategy: str) -> None:
        """The next opener. There is a handler of each strategy for each."""
        if len(self.openers) == MOST_OPENERS:
            raise BadLine
        who = len(self.openers) + 1
        self.region.admit(who)
        self.openers.append(Opener(who, self.region, strategy, ahead=self.ahead))

    def opener_of(self, who: int) -> Opener:
        if not 1 <= who <= len(self.openers) or not self.openers[who - 1].alive:
            raise BadLine
        return self.openers[who - 1]

    def step(self, opener: Opener, count: int) -> None:
        """Up to so many steps; an end of the call ends the line early. A step of an idle opener names nothing."""
        for _ in range(count):
            if not opener.running:
                return
            ended = opener.step()
            if ended is not None:
                self.lines.append(ended)
                return


def numbered_lines(script: bytes) -> Iterator[Optional[bytes]]:
    """The lines without their ends; None for one that is too long, or that holds the first byte over the script's limit."""
    cut = len(script) > LARGEST_SCRIPT
    lines = script[:LARGEST_SCRIPT].split(b'\n')
    last = lines.pop()
    for line in lines:
        yield line if len(line) <= LONGEST_LINE else None
    if cut:
        yield None
    elif last:
        yield last if len(last) <= LONGEST_LINE else None


def checked_region(data: bytes, meta: bytes) -> Region:
    """The region of two files, where their lengths and the record are accepted."""
    for file, limit in [(data, LARGEST_DATA), (meta, LARGEST_META)]:
        if len(file) > limit:
            raise Ended(14, f'size {len(file)}')
    region = Region(data, meta)
    check_record(region)
    return region


def dump(data: bytes, meta: bytes) -> List[str]:
    """What `dump` prints for a store of these two files."""
    region = checked_region(data, meta)
    now = shown(region)
    if now.text.startswith('damaged'):
        raise Ended(6, now.text)
    return region_text(region)


def play(data: bytes, meta: bytes, script: Callable[[], bytes], ahead: bool = False) -> List[str]:
    """What `play` prints for a store of these two files. The script is read once the store is known to show a whole image, or is accepted,
    ahead of the program."""
    region = checked_region(data, meta)
    if not ahead and not shown(region).whole:
        raise Ended(17, NOT_YET)
    player = Player(region, ahead)
    player.play(script())
    return player.lines + changes_text(region.changes) + region_text(region)


def ended(lines: Callable[[], List[str]]) -> Tuple[int, bytes]:
    """The status and the text with which a command ends."""
    try:
        status, text = 0, lines()
    except Ended as end:
        status, text = end.status, [end.line]
    return status, ''.join(line + '\n' for line in text).encode()


def id_is_valid(store: bytes) -> bool:
    try:
        store.decode('utf-8')
    except UnicodeDecodeError:
        return False
    return 1 <= len(store) <= 200 and not store.endswith(b'.crc') and not set(store) & set(b'\\/:*?"<>|')


def read_file(path: bytes, limit: int) -> Optional[bytes]:
    """The bytes of a file, None where it is missing. Its length is looked at first."""
    try:
        with open(path, 'rb') as file:
            size = os.fstat(file.fileno()).st_size
            if size > limit:
                raise Ended(14, f'size {size}')
            return file.read()
    except FileNotFoundError:
        return None
    except OSError:
        raise Ended(5, 'region fault') from None


def bring(folder: bytes, store: bytes) -> Tuple[bytes, bytes]:
    """The store's two files, the data file first. A missing meta file counts as an empty one."""
    # (a name is put behind the directory's word and a stroke, so that an empty word names the root)
    path = folder + b'/' + store
    data = read_file(path, LARGEST_DATA)
    if data is None:
        raise Ended(13, 'no store')
    return data, read_file(path + b'.crc', LARGEST_META) or b''


def command(words: List[bytes], ahead: bool) -> List[str]:
    if len(words) != 3 or words[1] not in (b'dump', b'play') or not id_is_valid(words[2]):
        raise Ended(2, 'usage')
    data, meta = bring(words[0], words[2])
    if words[1] == b'dump':
        return dump(data, meta)
    return play(data, meta, sys.stdin.buffer.read, ahead)


def main() -> int:
    words = [os.fsencode(word) for word in sys.argv[1:]]
    ahead = words[:1] == [b'--ahead']
    status, text = ended(lambda: command(words[1:] if ahead else words, ahead))
    sys.stdout.buffer.write(text)
    return status


if __name__ == '__main__':
    sys.exit(main())
