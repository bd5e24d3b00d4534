"""The output of `cantrace` in words: beside each line the event that it belongs to, and what it says."""

from typing import List, NamedTuple, Set

from recording_fields import FIRST_EVENT_TAG, LONGEST_RECORDING, Fault, Field, Tag
from recording_output import ACCEPTED, EVENTS_WITH_RECORDS, TOO_LONG, ConfigLine, EventLine, Output, Recording, ids_in, read_output
from recording_script import field_line
from recording_sheet import facts_at, marked_bytes, pointers
from recording_words import ADVICE, AT_THE_THRESHOLD, CALL_REFUSALS, LISTEN_OUTLOOK, MODE_WORDS, NO_COMMUNICATION, NO_SHEET, OF_A_RESET
from recording_words import SAME_FAULT, SHEET_ENDS, SHEET_FAULTS, SHEET_REFUSALS, STALL_OUTLOOK, TX_OFFLINE, Kind, Record, event_words
from recording_words import record_words

NOTHING_HANDED_OUT = "accepted: nothing is handed out"
WIDEST_LINE = 28
GAP = "  "
# As many as the longest field of a sheet has.
MOST_BYTES_SHOWN = 9
STOP_WORDS = {
    Fault.CUT: "the field is cut",
    Fault.UNKNOWN_TAG: "the tag is unknown",
    Fault.WRONG_LENGTH: "the length is not that of the tag",
    Fault.NONE: "the tag is below 10, and the sheet is over",
}


class Row(NamedTuple):
    """A line of the output, the event that it belongs to, and what it says, in one sentence or several."""

    line: str
    event: str
    meanings: List[str]


def shown(field: Field) -> str:
    """A field as a script has it; of one without a form its first bytes."""
    if field.fault == Fault.NONE:
        return field_line(field)
    return f"bytes {field.data[:MOST_BYTES_SHOWN].hex(' ')}" + (" ..." if len(field.data) > MOST_BYTES_SHOWN else "")


# ---------------------------------------------------------------------------
# What a line says
# ---------------------------------------------------------------------------


def refusal_words(number: int, why: str) -> str:
    """A refusal: its number as docs/RULES.md writes it, and when it is given."""
    return f"refused: 0x{number:02x}, {why}"


def place_meanings(recording: Recording, config: ConfigLine) -> List[str]:
    """At which byte a sheet is refused and what stands there; and the bytes of that field."""
    where = f"byte {config.number:,} of the sheet: "
    for pointer in pointers(recording.sheet, config.answer):
        if pointer.place == config.number:
            return [where + SHEET_FAULTS[config.answer].format(**facts_at(recording.sheet, pointer)), marked_bytes(pointer, MOST_BYTES_SHOWN)]
    return [where + (SHEET_ENDS if recording.sheet else NO_SHEET)]


def threshold_meanings(recording: Recording) -> List[str]:
    """Which networks of an accepted sheet have the long delay at the threshold already; of the others, which have it above, nothing is said."""
    numbers = [{field.tag: field.value[0] for field in fields} for fields in recording.networks]
    return [AT_THE_THRESHOLD.format(network[Tag.HANDLE], network[Tag.THRESHOLD]) for network in numbers if Tag.RELATION in network]


def config_meanings(recording: Recording, config: ConfigLine) -> List[str]:
    """What the first line says."""
    if config.answer != ACCEPTED:
        return [refusal_words(config.answer, SHEET_REFUSALS[config.answer]), *place_meanings(recording, config)]
    return [f"accepted: {config.number} network" + ("" if config.number == 1 else "s"), *threshold_meanings(recording)]


class Troubled:
    """The networks that are being reset: from a stall that is accepted to the next notice for the mode manager, which says how it ends. And those
    that are restarting: from a bus-off that is told to a TX offline of one of their controllers, or to no for the mode manager. And whether the
    manager listens, which no network can tell."""

    def __init__(self, recording: Recording) -> None:
        self.handle_of = {
            controller: ids_in(fields, Tag.HANDLE)[0] for fields in recording.networks for controller in ids_in(fields, Tag.CONTROLLER)
        }
        self.resetting: Set[int] = set()
        self.restarting: Set[int] = set()
        self.listening = 0

    def record_words(self, record: Record) -> str:
        """A record in a sentence; of a request to a controller also whether it is for the reset."""
        if record.kind == Kind.MODE_MANAGER:
            self.resetting.discard(record.target)
        if record == Record(Kind.MODE_MANAGER, record.target, NO_COMMUNICATION):
            self.restarting.discard(record.target)
        if record == Record(Kind.PDU_MODE, record.target, TX_OFFLINE):
            self.restarting.discard(self.handle_of[record.target])
        belongs = record.kind == Kind.CONTROLLER_MODE and self.handle_of[record.target] in self.resetting
        return record_words(record) + (OF_A_RESET if belongs else "")

    def stall_meanings(self, event: EventLine) -> List[str]:
        """What an accepted stall says, and what comes of it."""
        self.resetting.add(event.field.value[0])
        return [record_words(record) for record in event.records] + [STALL_OUTLOOK]

    def bus_off_meanings(self, event: EventLine) -> List[str]:
        """What a bus-off that is told says, and whether it is taken for a fault that was reported before."""
        handle = self.handle_of[event.field.value[0]]
        again = [SAME_FAULT] if handle in self.restarting else []
        self.restarting.add(handle)
        return [self.record_words(record) for record in event.records] + again


    def listen_meanings(self, event: EventLine) -> List[str]:
        """What an accepted call to listen says, and where it changes something what that brings."""
        value = event.field.value[0]
        outlook = [LISTEN_OUTLOOK[value]] if value != self.listening and value in LISTEN_OUTLOOK else []
        self.listening = value
        return ([record_words(record) for record in event.records] or [NOTHING_HANDED_OUT]) + outlook


def refusal_meanings(event: EventLine) -> List[str]:
    """Why an event is refused, and of silent, of a stall and of a call to listen what to do."""
    advice = ADVICE.get(event.field.tag, {}).get(event.answer)
    return [refusal_words(event.answer, CALL_REFUSALS[event.answer])] + ([] if advice is None else [advice])


def event_meanings(troubled: Troubled, event: EventLine) -> List[str]:
    """What the answer to an event, and what follows it, say."""
    if event.answer != ACCEPTED:
        return refusal_meanings(event)
    if event.polled is not None:
        return [f"the mode last told: {MODE_WORDS[event.polled]}"]
    if event.field.tag == Tag.REQUEST:
        return ["accepted: stored, and the next tick looks at it"]
    if event.field.tag == Tag.STALL:
        return troubled.stall_meanings(event)
    if event.field.tag == Tag.LISTEN:
        return troubled.listen_meanings(event)
    if event.field.tag == Tag.BUS_OFF and event.records:
        return troubled.bus_off_meanings(event)
    if event.field.tag in EVENTS_WITH_RECORDS:
        return [troubled.record_words(record) for record in event.records] or [NOTHING_HANDED_OUT]
    return ["taken"]


def stop_words(field: Field) -> str:
    """Why a recording stops at a field."""
    fault = Fault.NONE if field.tag < FIRST_EVENT_TAG and field.fault != Fault.CUT else field.fault
    return f"stop at byte {field.place}: {STOP_WORDS[fault]}"


# ---------------------------------------------------------------------------
# The whole output
# ---------------------------------------------------------------------------


def rows_of(recording: Recording, output: Output) -> List[Row]:
    """A row for each line."""
    if output.config is None:
        return [Row(TOO_LONG, f"recording of {recording.length} bytes", [f"more than {LONGEST_RECORDING} bytes: nothing is run"])]
    rows = [Row(output.config.line, f"sheet of {recording.sheet_bytes} bytes", config_meanings(recording, output.config))]
    troubled = Troubled(recording)
    rows += [Row(event.line, event_words(event.field), event_meanings(troubled, event)) for event in output.events]
    return rows + [Row(line, shown(field), [stop_words(field)]) for field, line in zip(recording.stop, output.stop)]


def table(rows: List[Row]) -> str:
    """The rows in three columns. A line that is too wide for the first column stands alone, above its event."""
    line_width = min(WIDEST_LINE, max(len(row.line) for row in rows))
    event_width = max(len(row.event) for row in rows)
    text = []
    for row in rows:
        line = row.line
        if len(line) > line_width:
            text.append(line)
            line = ""
        for event, meaning in zip([row.event] + [""] * len(row.meanings), row.meanings):
            text.append(f"{line:{line_width}}{GAP}{event:{event_width}}{GAP}{meaning}")
            line = ""
    return "".join(line + "\n" for line in text)


def explain(data: bytes, output: bytes) -> str:
    """The output of a recording, line by line, in words."""
    recording = Recording(data)
    return table(rows_of(recording, read_output(recording, output)))
