"""The fields of a recording: a byte of tag, two bytes of length with the high one first, and a value of that length (rule S1).

`cantrace` walks a recording field by field, by the lengths as written and whatever the tags. So does `fields_of`, for all bytes.
"""

from typing import Iterator, NamedTuple

HEADER_BYTES = 3
FIRST_EVENT_TAG = 0x10
LONGEST_RECORDING = 65536


class Tag:
    """The tags: the sheet's below 10 (hexadecimal), the events' from 10 on."""

    HANDLE = 0x01
    CONTROLLER = 0x02
    TRANSCEIVER = 0x03
    DELAYS = 0x04
    THRESHOLD = 0x05
    PARTIAL = 0x06
    RELATION = 0x07
    REQUEST = 0x10
    BUS_OFF = 0x11
    ANSWER = 0x12
    TRANSCEIVER_MODE = 0x13
    CLEAR_DONE = 0x14
    CHECK_DONE = 0x15
    TICK = 0x16
    POLL = 0x17
    STALL = 0x18
    LISTEN = 0x19


VALUE_BYTES = {
    Tag.HANDLE: 1,
    Tag.CONTROLLER: 1,
    Tag.TRANSCEIVER: 1,
    Tag.DELAYS: 6,
    Tag.THRESHOLD: 1,
    Tag.PARTIAL: 1,
    Tag.RELATION: 1,
    Tag.REQUEST: 2,
    Tag.BUS_OFF: 1,
    Tag.ANSWER: 3,
    Tag.TRANSCEIVER_MODE: 2,
    Tag.CLEAR_DONE: 1,
    Tag.CHECK_DONE: 1,
    Tag.TICK: 0,
    Tag.POLL: 1,
    Tag.STALL: 1,
    Tag.LISTEN: 1,
}


# The tags of a sheet.
SHEET_TAGS = tuple(tag for tag in VALUE_BYTES if tag < FIRST_EVENT_TAG)


class SheetRefusal:
    """The refusals of a sheet."""

    CUT = 0x30
    UNKNOWN_TAG = 0x31
    WRONG_LENGTH = 0x32
    WRONG_ORDER = 0x33
    OUT_OF_RANGE = 0x34
    USED_BEFORE = 0x35
    TOO_MANY = 0x36
    NO_TRANSCEIVER = 0x37
    NO_NETWORK = 0x38


class Mode:
    """The modes of a network."""

    NO = 0
    SILENT = 1
    FULL = 2


class Fault:
    """Why a field has no form of its own in a script; NONE if it has one."""

    NONE = ""
    CUT = "cut field"
    UNKNOWN_TAG = "unknown tag"
    WRONG_LENGTH = "wrong length"


class Field(NamedTuple):
    """A field: its place in the recording, all its bytes as they stand there, and what is wrong with them."""

    place: int
    data: bytes
    fault: str

    @property
    def tag(self) -> int:
        """The first byte."""
        return self.data[0]

    @property
    def length(self) -> int:
        """The length as it is written, whatever follows."""
        return int.from_bytes(self.data[1:HEADER_BYTES], "big")

    @property
    def value(self) -> bytes:
        """What follows tag and length."""
        return self.data[HEADER_BYTES:]

    def is_event(self) -> bool:
        """Whether the tag is 10 or above: the first such field ends the sheet."""
        return self.tag >= FIRST_EVENT_TAG


def field_bytes(tag: int, value: bytes) -> bytes:
    """The bytes of a field."""
    return bytes([tag]) + len(value).to_bytes(2, "big") + value


def field_at(data: bytes, place: int) -> Field:
    """The field at this place; one that the end of the recording cuts is all the rest."""
    start = place + HEADER_BYTES
    length = int.from_bytes(data[place + 1:start], "big")
    if start + length > len(data):
        return Field(place, data[place:], Fault.CUT)
    whole = data[place:start + length]
    if data[place] not in VALUE_BYTES:
        return Field(place, whole, Fault.UNKNOWN_TAG)
    return Field(place, whole, Fault.NONE if length == VALUE_BYTES[data[place]] else Fault.WRONG_LENGTH)


def fields_of(data: bytes) -> Iterator[Field]:
    """All fields of a recording, one after the other; together they are all its bytes."""
    place = 0
    while place < len(data):
        field = field_at(data, place)
        yield field
        place += len(field.data)
