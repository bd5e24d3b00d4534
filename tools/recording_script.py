"""Scripts: recordings as plain text, one form a line. `recording_of` makes bytes of a script, `script_of` a script of any bytes.

What a form looks like stands once, in FORMS, and serves both ways. A script is refused with the line and the reason; every
number that a field has room for can be written, also those that cantrace refuses.
"""

import codecs
import re
from typing import Dict, Iterator, List, NamedTuple, Optional, Sequence, Tuple

from recording_fields import Fault, Field, Mode, Tag, field_bytes, fields_of

SCRIPT_SUFFIX = ".script"
COMMENT = "#"
BLANKS = re.compile(r"[ \t]+")
DIGITS = re.compile(r"[0-9]+")
TWO_HEXADECIMAL_DIGITS = re.compile(r"[0-9a-fA-F]{2}")
BYTES_IN_A_LINE = 16
MOST_DIGITS = 5
LONGEST_QUOTE = 40


class ScriptError(Exception):
    """Why a script is refused, in words."""


# ---------------------------------------------------------------------------
# The forms
# ---------------------------------------------------------------------------


class Part(NamedTuple):
    """One number of a field: what it is called, its size in bytes, and how it is written.

    Without words it is a plain number. With them it is one of the words, each of which may be several in a row, or one of
    `before_number` and then a number; where there is none of these, the number alone. Where the line may end before it, or go
    on with the name of another form, `otherwise` is its value then. Of a sheet `allowed` are the numbers that cantrace does not refuse.
    """

    name: str
    size: int = 1
    words: Dict[str, int] = {}
    before_number: Tuple[str, ...] = ()
    otherwise: Optional[int] = None
    allowed: range = range(0)

    def highest(self) -> int:
        """The highest number that its bytes can hold."""
        return 256 ** self.size - 1


# S4 to S9, S27: the parts of a sheet, with the ranges of their numbers.
HANDLE = Part("handle", allowed=range(256))
CONTROLLER = Part("controller id", allowed=range(32))
TRANSCEIVER = Part("transceiver id", allowed=range(8))
SHORT_DELAY, LONG_DELAY, ENSURE_TIME = (Part(name, 2, allowed=range(1, 65536)) for name in ("short delay", "long delay", "ensure time"))
THRESHOLD = Part("threshold", allowed=range(255))
PARTIAL = Part("partial networking", otherwise=1, allowed=range(2))
RELATION = Part("rule for the long delay", words={"at the threshold": 1}, allowed=range(1, 2))
MODE = Part("mode", words={"no": Mode.NO, "silent": Mode.SILENT, "full": Mode.FULL}, before_number=("mode",))
CONTROLLER_MODE = Part("controller mode", words={"stopped": 0, "started": 1, "sleep": 2}, before_number=("mode",))
TRANSCEIVER_MODE = Part("transceiver mode", words={"normal": 0, "standby": 1}, before_number=("mode",))
RESULT = Part("result", words={"ok": 1, "refused": 0}, before_number=("value", "ok"))
LISTENING = Part("value to listen", words={"on": 1, "off": 0})


class Form(NamedTuple):
    """A line that is one field: the field's tag, and the parts of its value in their order."""

    tag: int
    parts: Sequence[Part] = ()


FORMS = {
    "handle": Form(Tag.HANDLE, [HANDLE]),
    "controller": Form(Tag.CONTROLLER, [CONTROLLER]),
    "transceiver": Form(Tag.TRANSCEIVER, [TRANSCEIVER]),
    "delays": Form(Tag.DELAYS, [SHORT_DELAY, LONG_DELAY, ENSURE_TIME]),
    "threshold": Form(Tag.THRESHOLD, [THRESHOLD]),
    "partial": Form(Tag.PARTIAL, [PARTIAL]),
    "long-delay": Form(Tag.RELATION, [RELATION]),
    "want": Form(Tag.REQUEST, [HANDLE, MODE]),
    "bus-off": Form(Tag.BUS_OFF, [CONTROLLER]),
    "answer": Form(Tag.ANSWER, [CONTROLLER, CONTROLLER_MODE, RESULT]),
    "transceiver-mode": Form(Tag.TRANSCEIVER_MODE, [TRANSCEIVER, TRANSCEIVER_MODE]),
    "clear-done": Form(Tag.CLEAR_DONE, [TRANSCEIVER]),
    "check-done": Form(Tag.CHECK_DONE, [TRANSCEIVER]),
    "tick": Form(Tag.TICK),
    "poll": Form(Tag.POLL, [HANDLE]),
    "stall": Form(Tag.STALL, [HANDLE]),
    "listen": Form(Tag.LISTEN, [LISTENING]),
}
NAME_OF_TAG = {form.tag: name for name, form in FORMS.items()}
WITHOUT_PARTIAL = field_bytes(Tag.PARTIAL, bytes([0]))


# ---------------------------------------------------------------------------
# From a script to bytes
# ---------------------------------------------------------------------------


def quoted(word: str) -> str:
    """A word as messages show it: cut where it is long, and with what cannot be seen made visible."""
    return repr(word if len(word) <= LONGEST_QUOTE else word[:LONGEST_QUOTE] + "...")


class Words:
    """The words of a line, taken one after the other."""

    def __init__(self, words: List[str]) -> None:
        self.words = words
        self.taken = 0

    def left(self) -> bool:
        """Whether there is a next word."""
        return self.taken < len(self.words)

    def next(self) -> str:
        """The next word, which is left there; empty at the end of the line."""
        return self.words[self.taken] if self.left() else ""

    def take(self) -> str:
        """The next word, which is taken."""
        word = self.next()
        self.taken += 1
        return word


def choices(part: Part) -> str:
    """What a part can be, in words."""
    number = f"a number from 0 to {part.highest()}"
    *first, last = [*part.words, *([] if part.before_number else [number])]
    return f"{', '.join(first)} or {last}" if first else last


def take_number(words: Words, part: Part) -> int:
    """The next word as a number of this part."""
    word = words.take()
    number = word.lstrip("0")
    if DIGITS.fullmatch(word) and len(number) <= MOST_DIGITS and int(number or "0") <= part.highest():
        return int(number or "0")
    if not word:
        raise ScriptError(f"the {part.name} is missing: a number from 0 to {part.highest()}")
    raise ScriptError(f"{quoted(word)} is no {part.name}: a number from 0 to {part.highest()}")


def take_rest(words: Words, begin: str, part: Part) -> str:
    """The one of the part's words that begins with this one, which is taken already; the rest of it is taken here. Empty where none does."""
    for whole in part.words:
        first, *rest = whole.split()
        if first == begin:
            for name in rest:
                expect(words, name)
                words.take()
            return whole
    return ""


def take_part(words: Words, part: Part) -> int:
    """The next word, or several, as the number that they stand for."""
    if part.otherwise is not None and (not words.left() or words.next() in FORMS):
        return part.otherwise
    if not part.words or (not part.before_number and DIGITS.match(words.next())):
        return take_number(words, part)
    word = words.take()
    if not word:
        raise ScriptError(f"the {part.name} is missing: {choices(part)}")
    if word in part.before_number and (words.left() or word not in part.words):
        return take_number(words, part)
    whole = take_rest(words, word, part)
    if not whole:
        raise ScriptError(f"{quoted(word)} is no {part.name}: {choices(part)}")
    return part.words[whole]


def take_field(words: Words) -> bytes:
    """A form that is one field, from its name on."""
    form = FORMS[words.take()]
    value = b"".join(take_part(words, part).to_bytes(part.size, "big") for part in form.parts)
    return field_bytes(form.tag, value)


def expect(words: Words, name: str) -> None:
    """The next word has to be this one."""
    if not words.left():
        raise ScriptError(f"{quoted(name)} is missing")
    if words.next() != name:
        raise ScriptError(f"{quoted(words.next())} stands where {quoted(name)} is expected")


def take_controllers(words: Words) -> bytes:
    """The word `controllers` and the ids after it, one or more: a field each."""
    expect(words, "controllers")
    words.take()
    ids = [take_number(words, CONTROLLER)]
    while DIGITS.match(words.next()):
        ids.append(take_number(words, CONTROLLER))
    return b"".join(field_bytes(Tag.CONTROLLER, bytes([number])) for number in ids)


def take_network(words: Words) -> bytes:
    """All fields of a network, in the order of the sheet. Without the word `partial` there is no partial networking, and field 07 stands only
    where `long-delay` does."""
    words.take()
    data = field_bytes(Tag.HANDLE, bytes([take_number(words, HANDLE)])) + take_controllers(words)
    if words.next() == "transceiver":
        data += take_field(words)
    for name in ("delays", "threshold"):
        expect(words, name)
        data += take_field(words)
    data += take_field(words) if words.next() == "partial" else WITHOUT_PARTIAL
    return data + (take_field(words) if words.next() == "long-delay" else b"")


def take_bytes(words: Words) -> bytes:
    """Bytes as they are, two hexadecimal digits each."""
    words.take()
    if not words.left():
        raise ScriptError("the bytes are missing: two hexadecimal digits each")
    data = []
    while words.left():
        word = words.take()
        if not TWO_HEXADECIMAL_DIGITS.fullmatch(word):
            raise ScriptError(f"{quoted(word)} is no byte: two hexadecimal digits")
        data.append(int(word, 16))
    return bytes(data)


def line_bytes(line: str) -> bytes:
    """What one line of a script stands for; nothing for a blank one."""
    words = Words([word for word in BLANKS.split(line.split(COMMENT)[0]) if word])
    name = words.next()
    if not name:
        return b""
    if name == "network":
        data = take_network(words)
    elif name == "bytes":
        data = take_bytes(words)
    elif name in FORMS:
        data = take_field(words)
    else:
        raise ScriptError(f"no line begins with {quoted(name)}: --help shows the forms")
    if words.left():
        raise ScriptError(f"{quoted(words.next())} is too much: the line is complete before it")
    return data


def text_of(line: bytes) -> str:
    """A line of a script as text, without its line end."""
    try:
        return line.decode("utf-8")
    except UnicodeDecodeError as error:
        raise ScriptError(f"byte {error.start + 1} of the line, {line[error.start]:02x}, is no UTF-8 text") from None


def lines_of(script: bytes) -> List[bytes]:
    """The lines without their ends, which are a newline or a carriage return and a newline; without the mark that some editors set first."""
    if script.startswith(codecs.BOM_UTF8):
        script = script[len(codecs.BOM_UTF8):]
    return [line[:-1] if line.endswith(b"\r") else line for line in script.split(b"\n")]


def recording_of(script: bytes, name: str = "") -> bytes:
    """The recording that a script stands for. A refusal names the line, and the file where the script has a name."""
    data = []
    for number, line in enumerate(lines_of(script), start=1):
        try:
            data.append(line_bytes(text_of(line)))
        except ScriptError as error:
            where = f"{name}: line {number}" if name else f"line {number}"
            raise ScriptError(f"{where}: {error}") from None
    return b"".join(data)


def is_script(name: str) -> bool:
    """Whether a file with this name is a script; any other has the bytes of a recording."""
    return name.endswith(SCRIPT_SUFFIX)


def recording_in(name: str, content: bytes) -> bytes:
    """The recording that a file with this name and content holds."""
    return recording_of(content, name) if is_script(name) else content


# ---------------------------------------------------------------------------
# From bytes to a script
# ---------------------------------------------------------------------------


def part_words(part: Part, number: int) -> List[str]:
    """The words of a part with this number."""
    if number == part.otherwise:
        return []
    if not part.words:
        return [str(number)]
    for word, meaning in part.words.items():
        if meaning == number:
            return [word]
    return [*part.before_number[:1], str(number)]


def parts_in(field: Field) -> Sequence[Part]:
    """The parts of the form of a good field."""
    return FORMS[NAME_OF_TAG[field.tag]].parts


def numbers_of(field: Field) -> List[int]:
    """The numbers of a good field, one for each part of its form."""
    numbers, place = [], 0
    for part in parts_in(field):
        numbers.append(int.from_bytes(field.value[place:place + part.size], "big"))
        place += part.size
    return numbers


def parts_of(field: Field) -> List[List[str]]:
    """The words of a good field, part by part."""
    return [part_words(part, number) for part, number in zip(parts_in(field), numbers_of(field))]


def field_line(field: Field) -> str:
    """The line of a good field."""
    return " ".join([NAME_OF_TAG[field.tag], *(word for words in parts_of(field) for word in words)])


def network_line(fields: List[Field]) -> str:
    """The line of the fields of one network."""
    handle, *others = fields
    ids = [str(field.value[0]) for field in others if field.tag == Tag.CONTROLLER]
    rest = [field_line(field) for field in others if field.tag != Tag.CONTROLLER and field.data != WITHOUT_PARTIAL]
    return " ".join(["network", str(handle.value[0]), "controllers", *ids, *rest])


def raw_lines(field: Field) -> List[str]:
    """The lines of a field that has no form: its bytes, and beside the first of them why."""
    chunks = [field.data[place:place + BYTES_IN_A_LINE] for place in range(0, len(field.data), BYTES_IN_A_LINE)]
    first, *others = [f"bytes {chunk.hex(' ')}" for chunk in chunks]
    return [f"{first}  {COMMENT} {field.fault}", *others]


def good_tag(fields: List[Field], index: int) -> Optional[int]:
    """The tag of a good field; None where there is none."""
    return fields[index].tag if index < len(fields) and fields[index].fault == Fault.NONE else None


def network_end(fields: List[Field], start: int) -> int:
    """The index after the network that begins at this one; the index itself where no whole network does."""
    if good_tag(fields, start) != Tag.HANDLE or good_tag(fields, start + 1) != Tag.CONTROLLER:
        return start
    end = start + 1
    while good_tag(fields, end) == Tag.CONTROLLER:
        end += 1
    if good_tag(fields, end) == Tag.TRANSCEIVER:
        end += 1
    for tag in (Tag.DELAYS, Tag.THRESHOLD, Tag.PARTIAL):
        if good_tag(fields, end) != tag:
            return start
        end += 1
    return end + 1 if good_tag(fields, end) == Tag.RELATION else end


def script_lines(fields: List[Field]) -> Iterator[str]:
    """The lines of a script; a blank one stands between the sheet and the events."""
    index = 0
    while index < len(fields):
        field = fields[index]
        if index > 0 and field.is_event() != fields[index - 1].is_event():
            yield ""
        end = network_end(fields, index)
        if end > index:
            yield network_line(fields[index:end])
        elif field.fault == Fault.NONE:
            yield field_line(field)
        else:
            yield from raw_lines(field)
        index = max(end, index + 1)


def script_of(data: bytes) -> str:
    """The script of a recording: forms where the bytes have one, the bytes themselves elsewhere."""
    return "".join(line + "\n" for line in script_lines(list(fields_of(data))))
