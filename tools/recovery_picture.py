"""The picture of one recovery from a bus-off, `docs/recovery.svg`.

It is drawn from a recording and from the output that `cantrace` wrote for it: which event comes when is read off the recording, what the
manager answers, asks for and tells is read off the output alone. Time goes down; each event of the network has a row.
"""

from pathlib import Path
from typing import Dict, List, NamedTuple, Optional, Tuple
from xml.sax.saxutils import escape

from recording_fields import Field, Mode, Tag
from recording_output import ACCEPTED, TARGET_TAG, Output, Recording, ids_in, output_of_file, read_output
from recording_script import MODE, NAME_OF_TAG, numbers_of, part_words, recording_in
from recording_words import MODE_WORDS, TX_OFFLINE, Kind, Record, event_words, short_record_words

ROOT = Path(__file__).resolve().parent.parent
RECORDING = ROOT / "examples" / "whole-case.script"
OUTPUT = ROOT / "examples" / "whole-case.txt"
PICTURE = ROOT / "docs" / "recovery.svg"

# The field of the sheet that has the id of an event; a tick and a call to listen name nobody, and are for all networks.
NAMING_NOBODY = (Tag.TICK, Tag.LISTEN)
ID_TAG = {
    Tag.REQUEST: Tag.HANDLE,
    Tag.BUS_OFF: Tag.CONTROLLER,
    Tag.ANSWER: Tag.CONTROLLER,
    Tag.TRANSCEIVER_MODE: Tag.TRANSCEIVER,
    Tag.CLEAR_DONE: Tag.TRANSCEIVER,
    Tag.CHECK_DONE: Tag.TRANSCEIVER,
    Tag.POLL: Tag.HANDLE,
    Tag.STALL: Tag.HANDLE,
}
EVENTS_BEFORE = 2
EVENTS_AFTER = 1


class NoRecovery(Exception):
    """Why there is nothing to draw."""


# ---------------------------------------------------------------------------
# One network of a recording
# ---------------------------------------------------------------------------


class Network(NamedTuple):
    """What the sheet says of a network: its ids, by the tag of their fields, and its numbers."""

    ids: Dict[int, List[int]]
    short_delay: int
    long_delay: int
    ensure_time: int
    threshold: int
    long_at_threshold: bool

    @property
    def handle(self) -> int:
        return self.ids[Tag.HANDLE][0]

    @property
    def controllers(self) -> List[int]:
        return self.ids[Tag.CONTROLLER]


class Event(NamedTuple):
    """An event of one network: its number and its field, whether it is accepted, the network's records, the polled mode, and the mode last
    told after it."""

    number: int
    field: Field
    accepted: bool
    records: List[Record]
    polled: Optional[int]
    told: int

    @property
    def tag(self) -> int:
        return self.field.tag


def network_of(fields: List[Field]) -> Network:
    """A network, from its fields in the sheet."""
    ids = {tag: ids_in(fields, tag) for tag in (Tag.HANDLE, Tag.CONTROLLER, Tag.TRANSCEIVER)}
    numbers = {field.tag: numbers_of(field) for field in fields}
    return Network(ids, *numbers[Tag.DELAYS], *numbers[Tag.THRESHOLD], Tag.RELATION in numbers)


def concerns(network: Network, field: Field) -> bool:
    """Whether an event is for all networks or names an id of this one."""
    return field.tag in NAMING_NOBODY or field.value[0] in network.ids[ID_TAG[field.tag]]


def events_of(network: Network, output: Output) -> List[Event]:
    """The events of one network. It is told no until the first record that tells another mode."""
    events = []
    told = Mode.NO
    for line in output.events:
        records = [record for record in line.records if record.target in network.ids[TARGET_TAG[record.kind]]]
        for record in records:
            told = record.argument if record.kind == Kind.COMMUNICATION_MANAGER else told
        if concerns(network, line.field):
            events.append(Event(line.number, line.field, line.answer == ACCEPTED, records, line.polled, told))
    return events


# ---------------------------------------------------------------------------
# The recovery
# ---------------------------------------------------------------------------


class Recovery(NamedTuple):
    """The events that are drawn and, as places among them, those that matter: the bus-off, TX offline, with which the delay begins, and the
    tick that tells full again."""

    network: Network
    events: List[Event]
    bus_off: int
    offline: int
    full_again: int


def hands_out(event: Event, kind: int, argument: int) -> bool:
    """Whether an event hands out a record of this kind with this argument."""
    return any((record.kind, record.argument) == (kind, argument) for record in event.records)


def recovery_of(network: Network, events: List[Event]) -> Optional[Recovery]:
    """The first recovery of a network that was full: from just before it is told full to just after it is told full again, with a single
    bus-off and a single TX offline between."""
    full = [place for place, event in enumerate(events) if hands_out(event, Kind.COMMUNICATION_MANAGER, Mode.FULL)]
    for before, again in zip(full, full[1:]):
        bus_offs = [place for place in range(before, again) if events[place].tag == Tag.BUS_OFF and events[place].records]
        offlines = [place for place in range(before, again) if hands_out(events[place], Kind.PDU_MODE, TX_OFFLINE)]
        if len(bus_offs) == len(offlines) == 1:
            first = max(before - EVENTS_BEFORE, 0)
            drawn = events[first:again + EVENTS_AFTER + 1]
            return Recovery(network, drawn, bus_offs[0] - first, offlines[0] - first, again - first)
    return None


def first_recovery(data: bytes, output: bytes) -> Recovery:
    """The first recovery of the first network that has one."""
    recording = Recording(data)
    lines = read_output(recording, output)
    for network in map(network_of, recording.networks):
        recovery = recovery_of(network, events_of(network, lines))
        if recovery is not None:
            return recovery
    raise NoRecovery("no network of this recording is told full again after a single bus-off")


def ticks_between(recovery: Recovery, start: int, end: int) -> int:
    """The number of ticks after the event at one place, up to that at another one."""
    return sum(event.tag == Tag.TICK for event in recovery.events[start + 1:end + 1])


def in_ticks(count: int) -> str:
    return "1 tick" if count == 1 else f"{count} ticks"


def delay_in_words(recovery: Recovery) -> str:
    """The delay, counted in the run, with its name in the sheet."""
    network = recovery.network
    ticks = ticks_between(recovery, recovery.offline, recovery.full_again)
    names = {network.long_delay: "the long delay", network.short_delay: "the short delay"}
    name = "the delay" if network.long_delay == network.short_delay else names.get(ticks, "the delay")
    return f"{name}: {in_ticks(ticks)}"


# ---------------------------------------------------------------------------
# Words
# ---------------------------------------------------------------------------


def event_in_words(event: Event) -> str:
    """What comes in, for the arrow of an event that is no tick; of a poll also what it gives."""
    words = event_words(event.field)
    return words if event.polled is None else f"{words}: {MODE_WORDS[event.polled]}"


def record_in_words(record: Record) -> str:
    """A record in words, and as the output has it."""
    return f"{short_record_words(record)} ({record.kind}:{record.target}:{record.argument})"


def name_of(recovery: Recovery, place: int) -> str:
    """What a row is called: its event's number and name, whether it is refused, and of a tick after the bus-off how many there have been."""
    event = recovery.events[place]
    name = f"{event.number}: {NAME_OF_TAG[event.tag]}"
    if not event.accepted:
        return f"{name}, refused"
    if event.tag == Tag.TICK and recovery.bus_off < place <= recovery.full_again:
        return f"{name} {ticks_between(recovery, recovery.bus_off, place)} after the bus-off"
    return name


def note_of(recovery: Recovery, place: int) -> Tuple[str, str]:
    """What the installer may do from this row on, and its colour; empty where nothing changes."""
    event = recovery.events[place]
    before = recovery.events[place - 1].told if place else event.told
    if event.told == Mode.FULL and before != Mode.FULL:
        return "only from here may a level be used", GREEN
    if event.told != Mode.FULL and before == Mode.FULL:
        return "no level may be used from here", RED
    return "", ""


# ---------------------------------------------------------------------------
# Drawing
# ---------------------------------------------------------------------------

GREEN = "#1b5e20"
RED = "#b3261e"
GREY = "#757575"
BLACK = "#202020"
BAND_COLOURS = {Mode.NO: "#cfd8dc", Mode.SILENT: "#ffe082", Mode.FULL: "#a5d6a7"}

WIDTH = 1120
LEFT = 16
ABOVE = 280
BAND_LEFT = 530
BAND_RIGHT = 610
BELOW = 860
BRACKET = 890
TOP = 70
LINE = 20
ROW_SPACE = 18
CAPTION_SPACE = 70


class Row(NamedTuple):
    """A row of the picture: where it begins, and the middle of the line of its first arrow."""

    top: int
    first_line: int


def text(x: int, y: int, words: str, colour: str = BLACK, anchor: str = "start", weight: str = "normal") -> str:
    return f'<text x="{x}" y="{y}" fill="{colour}" text-anchor="{anchor}" font-weight="{weight}">{escape(words)}</text>'


def line(x: int, y: int, to_x: int, to_y: int, colour: str, dashes: str = "none", width: int = 1) -> str:
    return f'<line x1="{x}" y1="{y}" x2="{to_x}" y2="{to_y}" stroke="{colour}" stroke-width="{width}" stroke-dasharray="{dashes}"/>'


def box(x: int, y: int, width: int, height: int, colour: str) -> str:
    return f'<rect x="{x}" y="{y}" width="{width}" height="{height}" fill="{colour}"/>'


def arrow(x: int, to_x: int, y: int, words: str, colour: str) -> List[str]:
    """An arrow from left to right or back, with words above it."""
    back = -8 if to_x > x else 8
    head = f'<polygon points="{to_x},{y} {to_x + back},{y - 4} {to_x + back},{y + 4}" fill="{colour}"/>'
    return [line(x, y, to_x, y, colour), head, text((x + to_x) // 2, y - 4, words, colour, "middle")]


def incoming_arrow(event: Event, y: int) -> List[str]:
    """The arrow of an event that is no tick: from above, as a call to listen too, or from below."""
    colour = RED if event.tag in (Tag.BUS_OFF, Tag.STALL) else BLACK
    if ID_TAG.get(event.tag, Tag.HANDLE) == Tag.HANDLE:
        return arrow(ABOVE, BAND_LEFT, y, event_in_words(event), colour)
    return arrow(BELOW, BAND_RIGHT, y, event_in_words(event), colour)


def goes_up(record: Record) -> bool:
    """Whether a record is for one of the managers above, which know the network by its handle."""
    return TARGET_TAG[record.kind] == Tag.HANDLE


def arrows_of(event: Event, y: int) -> List[str]:
    """What comes in and what is handed out; each side has its own lines."""
    drawn: List[str] = []
    above = below = y
    if event.tag != Tag.TICK:
        drawn += incoming_arrow(event, y)
    if event.tag == Tag.BUS_OFF:
        below += LINE
    if event.tag == Tag.STALL:
        above += LINE
    for record in event.records:
        if goes_up(record):
            drawn += arrow(BAND_LEFT, ABOVE, above, record_in_words(record), BLACK)
            above += LINE
        else:
            drawn += arrow(BAND_RIGHT, BELOW, below, record_in_words(record), BLACK)
            below += LINE
    return drawn


def lines_needed(event: Event) -> int:
    """The lines of a row: the larger number of arrows on one side, and two for a row's name and its note. A stall comes in where its record
    goes out."""
    above = sum(goes_up(record) for record in event.records)
    below = len(event.records) - above
    if event.tag == Tag.STALL and above:
        above += 1
    return max(above, below, 2 if above else 1)


def rows_of(events: List[Event]) -> List[Row]:
    """The rows one below the other; the last one is the end of the picture."""
    rows = []
    top = TOP
    for event in events:
        rows.append(Row(top, top + LINE))
        top += lines_needed(event) * LINE + ROW_SPACE
    return rows + [Row(top, top + LINE)]


def band(recovery: Recovery, rows: List[Row]) -> List[str]:
    """The mode last told, from row to row: the manager's own column."""
    events = recovery.events
    drawn = []
    start = TOP - LINE
    for place, event in enumerate(events):
        last = place + 1 == len(events)
        end = rows[place + 1].top if last else rows[place + 1].first_line
        if last or events[place + 1].told != event.told:
            drawn.append(box(BAND_LEFT, start, BAND_RIGHT - BAND_LEFT, end - start, BAND_COLOURS[event.told]))
            drawn.append(text((BAND_LEFT + BAND_RIGHT) // 2, (start + end) // 2 + 5, " ".join(part_words(MODE, event.told)), BLACK, "middle", "bold"))
            start = end
    return drawn


def row_names(recovery: Recovery, rows: List[Row]) -> List[str]:
    """The name of each row, a line through the picture for a tick, and what the installer may do."""
    drawn = []
    for place, event in enumerate(recovery.events):
        y = rows[place].first_line
        tick = event.tag == Tag.TICK
        if tick:
            drawn.append(line(LEFT, y, BELOW, y, "#bdbdbd", "2,4"))
        drawn.append(text(LEFT, y - 4, name_of(recovery, place), BLACK if tick else GREY, "start", "bold" if tick else "normal"))
        note, colour = note_of(recovery, place)
        if note:
            drawn.append(text(LEFT, y + LINE - 4, note, colour, "start", "bold"))
            drawn.append(line(BAND_LEFT - 6, y, BAND_RIGHT + 6, y, colour, width=3))
    return drawn


def bracket(x: int, y: int, to_y: int, words: List[str]) -> List[str]:
    """A bracket on the right from one row to another, with words beside its middle."""
    y, to_y = y + 2, to_y - 2
    shape = f'<path d="M {x - 8} {y} H {x} V {to_y} H {x - 8}" fill="none" stroke="{BLACK}"/>'
    middle = (y + to_y) // 2 + 5 - LINE * (len(words) - 1) // 2
    return [shape] + [text(x + 8, middle + LINE * number, each) for number, each in enumerate(words)]


def brackets(recovery: Recovery, rows: List[Row]) -> List[str]:
    """How many ticks pass to TX offline, and then to full."""
    bus_off, offline, full_again = (rows[place].first_line for place in (recovery.bus_off, recovery.offline, recovery.full_again))
    before = ticks_between(recovery, recovery.bus_off, recovery.offline)
    ticks = ticks_between(recovery, recovery.bus_off, recovery.full_again)
    one = len(recovery.network.controllers) == 1
    asked = "the controller is asked to" if one else "all controllers are asked to"
    answered = "start, and answers" if one else "start, and answer"
    drawn = bracket(BRACKET, bus_off, offline, [asked, f"{answered}: {in_ticks(before)}"])
    drawn += bracket(BRACKET, offline, full_again, [delay_in_words(recovery), f"(in all {ticks} after the bus-off)"])
    return drawn


def heads(recovery: Recovery, bottom: int) -> List[str]:
    """The names of the columns, and the two lines that arrows begin and end at."""
    network = recovery.network
    controllers = "controller" if len(network.controllers) == 1 else "controllers"
    below = f"{controllers} {', '.join(map(str, network.controllers))}"
    middle = (BAND_LEFT + BAND_RIGHT) // 2
    names = [(ABOVE, "above"), (middle, f"network {network.handle}, mode told"), (BELOW, below)]
    drawn = [text(LEFT, 30, "event", BLACK, "start", "bold")]
    drawn += [text(x, 30, name, BLACK, "middle", "bold") for x, name in names]
    return drawn + [line(x, TOP - LINE, x, bottom, GREY) for x in (ABOVE, BELOW)]


def caption(recovery: Recovery, source: str, y: int) -> List[str]:
    """What the picture is made from, and what the sheet says of the network."""
    network = recovery.network
    at_threshold = ", at which the long delay begins" if network.long_at_threshold else ""
    lines = [
        f"Drawn from {source} and the output of cantrace for it. Time goes down. In brackets are the records as the output has them.",
        f"Short delay {network.short_delay}, long delay {network.long_delay}, ensure time {network.ensure_time}, in ticks. "
        f"Threshold {network.threshold}{at_threshold}. A dotted line is a tick.",
    ]
    return [text(LEFT, y + LINE * number, words) for number, words in enumerate(lines)]


def picture_of(data: bytes, output: bytes, source: str) -> str:
    """The picture as SVG, from the bytes of a recording and the output of cantrace; `source` is what the caption calls the recording."""
    recovery = first_recovery(data, output)
    rows = rows_of(recovery.events)
    bottom = rows[-1].top
    height = bottom + CAPTION_SPACE
    drawn = heads(recovery, bottom) + band(recovery, rows) + row_names(recovery, rows)
    for event, row in zip(recovery.events, rows):
        drawn += arrows_of(event, row.first_line)
    drawn += brackets(recovery, rows) + caption(recovery, source, bottom + 30)
    return "\n".join([
        '<?xml version="1.0" encoding="UTF-8"?>',
        "<!-- made by: tools/draw recovery -->",
        f'<svg xmlns="http://www.w3.org/2000/svg" width="{WIDTH}" height="{height}" viewBox="0 0 {WIDTH} {height}" '
        'font-family="sans-serif" font-size="12">',
        "<title>One recovery from a bus-off</title>",
        box(0, 0, WIDTH, height, "white"),
        *drawn,
        "</svg>",
    ]) + "\n"


def picture_from_files(recording: Path, output: Path) -> str:
    """The picture as SVG, from a file with a recording, as text or as bytes, and one with the output of cantrace for it."""
    source = recording.resolve()
    name = source.relative_to(ROOT) if ROOT in source.parents else source.name
    data = recording_in(str(recording), recording.read_bytes())
    with output_of_file(str(recording)):
        return picture_of(data, output.read_bytes(), str(name))


def stored_picture() -> str:
    """The picture as SVG, from the stored example."""
    return picture_from_files(RECORDING, OUTPUT)
