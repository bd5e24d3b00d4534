"""A recording as `cantrace` takes it, and the output that `cantrace` wrote for it, line by line.

Nothing is run again: what the recording alone decides (the number of lines, the numbers of the events, the places of a stop and of a
refusal, the ids of the sheet) is compared, and an output that cannot be the recording's is refused.
"""

import re
from contextlib import contextmanager
from typing import Dict, Iterator, List, NamedTuple, Optional

from recording_fields import LONGEST_RECORDING, Fault, Field, SheetRefusal, Tag, fields_of
from recording_script import is_script, network_end, quoted
from recording_sheet import is_sound, pointers
from recording_words import CALL_REFUSALS, MODE_WORDS, RECORD_WORDS, SHEET_REFUSALS, Kind, Record, event_words

NUMBER = "(0|[1-9][0-9]{0,8})"
CONFIG_LINE = re.compile(f"config {NUMBER} {NUMBER}")
STOP_LINE = re.compile(f"stop {NUMBER}")
EVENT_LINE = re.compile(f"{NUMBER} {NUMBER}((?: [0-9:]+)*)")
RECORD = re.compile(f"{NUMBER}:{NUMBER}:{NUMBER}")
TOO_LONG = "too long"
ACCEPTED = 0
MOST_PLACES_NAMED = 3

# The field of the sheet that has the target of a record, by its kind.
TARGET_TAG = {
    Kind.CONTROLLER_MODE: Tag.CONTROLLER,
    Kind.TRANSCEIVER_MODE: Tag.TRANSCEIVER,
    Kind.PDU_MODE: Tag.CONTROLLER,
    Kind.CLEAR_WAKE_FLAG: Tag.TRANSCEIVER,
    Kind.CHECK_WAKE_FLAG: Tag.TRANSCEIVER,
    Kind.COMMUNICATION_MANAGER: Tag.HANDLE,
    Kind.MODE_MANAGER: Tag.HANDLE,
    Kind.EVENT_MANAGER: Tag.HANDLE,
}
EVENTS_WITH_RECORDS = (Tag.TICK, Tag.BUS_OFF, Tag.STALL, Tag.LISTEN)


class NotItsOutput(Exception):
    """Why an output does not belong to a recording."""


# ---------------------------------------------------------------------------
# The recording
# ---------------------------------------------------------------------------


def ids_in(fields: List[Field], tag: int) -> List[int]:
    """The ids that the fields with this tag have."""
    return [field.value[0] for field in fields if field.tag == tag and field.fault == Fault.NONE]


def networks_in(sheet: List[Field]) -> List[List[Field]]:
    """The fields of each whole network, up to the end of the sheet or to the first field that begins none."""
    networks, start, end = [], 0, network_end(sheet, 0)
    while end > start:
        networks.append(sheet[start:end])
        start, end = end, network_end(sheet, end)
    return networks


class Recording:
    """The fields of a recording: those of the sheet, all and by networks, the events that run, and the field at which it stops, if there is one."""

    def __init__(self, data: bytes) -> None:
        fields = list(fields_of(data))
        events_start = next((index for index, field in enumerate(fields) if field.is_event()), len(fields))
        self.length = len(data)
        self.sheet = fields[:events_start]
        self.sheet_bytes = sum(len(field.data) for field in self.sheet)
        self.networks = networks_in(self.sheet)
        self.ids = {tag: ids_in(self.sheet, tag) for tag in (Tag.HANDLE, Tag.CONTROLLER, Tag.TRANSCEIVER)}
        later = fields[events_start:]
        bad = next((index for index, field in enumerate(later) if field.fault != Fault.NONE or not field.is_event()), len(later))
        self.events = later[:bad]
        self.stop = later[bad:bad + 1]

    def is_whole(self) -> bool:
        """Whether all of the sheet is whole networks."""
        return sum(map(len, self.networks)) == len(self.sheet)


# ---------------------------------------------------------------------------
# One line
# ---------------------------------------------------------------------------


class ConfigLine(NamedTuple):
    """The first line: its answer, and the number of networks or the place of a refusal."""

    line: str
    answer: int
    number: int


class EventLine(NamedTuple):
    """The line of an event: the event's number and field, its answer, the records that it hands out, and the mode of an accepted poll."""

    line: str
    number: int
    field: Field
    answer: int
    records: List[Record]
    polled: Optional[int]


def check_refusal(number: int, known: Dict[int, str]) -> None:
    """A refusal has to be one of those that can stand there."""
    if number not in known:
        raise NotItsOutput(f"{number} is no refusal that can stand here")


def places_of(recording: Recording, refusal: int) -> List[int]:
    """Where a refusal can point in a sheet."""
    # S25: it has no network just where it is empty
    if not recording.sheet:
        return [0] if refusal == SheetRefusal.NO_NETWORK else []
    # S26: it can be refused at its end where all its fields are sound
    at_end = refusal == SheetRefusal.CUT and not recording.is_whole() and all(map(is_sound, recording.sheet))
    return [recording.sheet_bytes] if at_end else [pointer.place for pointer in pointers(recording.sheet, refusal)]


def check_place(recording: Recording, refusal: int, place: int) -> None:
    """A refusal of the sheet has to point at what it can be given for."""
    places, words = places_of(recording, refusal), f"{refusal}, {SHEET_REFUSALS[refusal]}"
    if not places:
        raise NotItsOutput(f"a sheet of {recording.sheet_bytes} bytes is not refused by {words}")
    if place not in places:
        named = " or ".join(map(str, places[:MOST_PLACES_NAMED])) + (" or later" if len(places) > MOST_PLACES_NAMED else "")
        raise NotItsOutput(f"this sheet can be refused by {words}, at byte {named}, and not at byte {place}")


def read_config(recording: Recording, line: str) -> ConfigLine:
    """The first line."""
    found = CONFIG_LINE.fullmatch(line)
    if not found:
        raise NotItsOutput(f"'config' and two numbers are expected, not {quoted(line)}")
    answer, number = int(found[1]), int(found[2])
    if answer != ACCEPTED:
        check_refusal(answer, SHEET_REFUSALS)
        check_place(recording, answer, number)
    elif number != len(recording.networks):
        raise NotItsOutput(f"the number of networks is {number}, and in the sheet it is {len(recording.networks)}")
    elif not recording.is_whole():
        raise NotItsOutput(f"the sheet is accepted, and not all of it is whole networks")
    return ConfigLine(line, answer, number)


def read_record(recording: Recording, text: str) -> Record:
    """A record that is handed out."""
    found = RECORD.fullmatch(text)
    record = Record(*(int(number) for number in found.groups())) if found else None
    if record is None or (record.kind, record.argument) not in RECORD_WORDS:
        raise NotItsOutput(f"{quoted(text)} is no record")
    if record.target not in recording.ids[TARGET_TAG[record.kind]]:
        raise NotItsOutput(f"{quoted(text)} names an id that the sheet does not have")
    return record


def read_polled(rest: List[str]) -> int:
    """The mode that a poll gives."""
    modes = {str(mode): mode for mode in MODE_WORDS}
    if len(rest) != 1 or rest[0] not in modes:
        raise NotItsOutput("the answer of a poll and then a mode, 0 to 2, are expected")
    return modes[rest[0]]


def read_event(recording: Recording, field: Field, number: int, line: str) -> EventLine:
    """The line of an event."""
    found = EVENT_LINE.fullmatch(line)
    if not found or int(found[1]) != number:
        raise NotItsOutput(f"event {number} is expected, not {quoted(line)}")
    answer, rest = int(found[2]), found[3].split()
    if answer != ACCEPTED:
        if rest != (["0"] if field.tag == Tag.POLL else []):
            raise NotItsOutput("a refused event hands out nothing")
        check_refusal(answer, CALL_REFUSALS)
        return EventLine(line, number, field, answer, [], None)
    if field.tag == Tag.POLL:
        return EventLine(line, number, field, answer, [], read_polled(rest))
    if rest and field.tag not in EVENTS_WITH_RECORDS:
        raise NotItsOutput(f"only a tick, a bus-off, a stall and a call to listen hand out records, and this is: {event_words(field)}")
    return EventLine(line, number, field, answer, [read_record(recording, text) for text in rest], None)


def check_stop(field: Field, line: str) -> None:
    """The last line of a recording that has a bad field."""
    found = STOP_LINE.fullmatch(line)
    if not found or int(found[1]) != field.place:
        raise NotItsOutput(f"'stop {field.place}' is expected, not {quoted(line)}")


# ---------------------------------------------------------------------------
# The whole output
# ---------------------------------------------------------------------------


class Output(NamedTuple):
    """The lines of an output: the first one, which a recording that is too long has not, those of the events, and the `stop` if there is one."""

    config: Optional[ConfigLine]
    events: List[EventLine]
    stop: List[str]


@contextmanager
def at_line(number: int) -> Iterator[None]:
    """What is wrong with a line is said with its number."""
    try:
        yield
    except NotItsOutput as error:
        raise NotItsOutput(f"line {number}: {error}") from None


@contextmanager
def output_of_file(name: str) -> Iterator[None]:
    """What is wrong with an output is said with the name of its recording, and how that was taken."""
    try:
        yield
    except NotItsOutput as error:
        taken_as = "a script" if is_script(name) else "bytes"
        raise NotItsOutput(f"the output does not belong to {name}, taken as {taken_as}: {error}") from None


def lines_of(output: bytes) -> List[str]:
    """The lines of an output."""
    if not output:
        raise NotItsOutput("it is empty")
    *lines, rest = output.decode("ascii", "backslashreplace").replace("\r\n", "\n").split("\n")
    if rest:
        raise NotItsOutput(f"line {len(lines) + 1}: the line end is missing, so the output is cut")
    return lines


def read_events(recording: Recording, lines: List[str]) -> List[EventLine]:
    """The lines of the events, which stand after the first line."""
    events = []
    for number, (field, line) in enumerate(zip(recording.events, lines), start=1):
        with at_line(number + 1):
            events.append(read_event(recording, field, number, line))
    return events


def read_lines(recording: Recording, lines: List[str]) -> Output:
    """All lines; a refused sheet has one line and no more."""
    with at_line(1):
        config = read_config(recording, lines[0])
    accepted = config.answer == ACCEPTED
    before_stop = 1 + len(recording.events)
    events = read_events(recording, lines[1:]) if accepted else []
    stop = lines[before_stop:] if accepted and recording.stop else []
    for field, line in zip(recording.stop, stop):
        with at_line(before_stop + 1):
            check_stop(field, line)
    expected = before_stop + len(recording.stop) if accepted else 1
    if len(lines) != expected:
        raise NotItsOutput(f"its number of lines is {len(lines)}, not {expected}")
    return Output(config, events, stop)


def read_output(recording: Recording, output: bytes) -> Output:
    """The output of a recording."""
    lines = lines_of(output)
    if recording.length <= LONGEST_RECORDING:
        return read_lines(recording, lines)
    if lines != [TOO_LONG]:
        raise NotItsOutput(f"the recording has more than {LONGEST_RECORDING} bytes, and the output is not the line {TOO_LONG!r}")
    return Output(None, [], [])
