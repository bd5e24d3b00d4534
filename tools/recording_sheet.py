"""Where a refusal of a sheet points, and what stands there (rules S15 to S29).

A sheet is not read again. What a field is refused with for its own bytes is known without the fields before it, and the reader of cantrace comes
no further than to the first such field. Of a refusal that depends on the fields before it, it is known of which tags the field can be.
"""

from typing import Dict, Iterator, List, NamedTuple, Optional

from recording_fields import HEADER_BYTES, SHEET_TAGS, VALUE_BYTES, Fault, Field, SheetRefusal, Tag
from recording_script import Part, numbers_of, parts_in

GOOD = 0
# S19, S21 to S23: the tags of the fields that can be refused with a number, where it takes the fields before them to say so.
TAGS_OF_REFUSAL = {
    SheetRefusal.WRONG_ORDER: SHEET_TAGS,
    SheetRefusal.USED_BEFORE: (Tag.HANDLE, Tag.CONTROLLER, Tag.TRANSCEIVER),
    SheetRefusal.TOO_MANY: (Tag.HANDLE, Tag.CONTROLLER),
    SheetRefusal.NO_TRANSCEIVER: (Tag.PARTIAL,),
}


class Pointer(NamedTuple):
    """The bytes of a field that a refusal points at: how far behind the tag they begin, and how many they are."""

    field: Field
    distance: int = 0
    size: int = 1

    @property
    def place(self) -> int:
        """Where the first of them stands."""
        return self.field.place + self.distance


class Number(NamedTuple):
    """A number of a field: how far behind the tag it begins, which part of the form it is, and its value."""

    distance: int
    part: Part
    value: int


def numbers_in(field: Field) -> Iterator[Number]:
    """The numbers of a field of good layout."""
    distance = HEADER_BYTES
    for part, value in zip(parts_in(field), numbers_of(field)):
        yield Number(distance, part, value)
        distance += part.size


# ---------------------------------------------------------------------------
# What can be refused
# ---------------------------------------------------------------------------


def layout_refusal(field: Field) -> int:
    """What a field is refused with for its tag and its length."""
    # S15 to S18: in this order
    if len(field.data) < HEADER_BYTES:
        return SheetRefusal.CUT
    if field.tag not in SHEET_TAGS:
        return SheetRefusal.UNKNOWN_TAG
    if field.length != VALUE_BYTES[field.tag]:
        return SheetRefusal.WRONG_LENGTH
    return SheetRefusal.CUT if field.fault == Fault.CUT else GOOD


def wrong_number(field: Field) -> Optional[Pointer]:
    """The first number of a field of good layout that is out of its range."""
    # S29: where it begins
    wrong = (number for number in numbers_in(field) if number.value not in number.part.allowed)
    return next((Pointer(field, number.distance, number.part.size) for number in wrong), None)


def pointer_at(field: Field, refusal: int) -> Optional[Pointer]:
    """What a refusal points at in a field; None where the field cannot be refused with it."""
    if layout_refusal(field) != GOOD:
        # S28: at the two bytes of the length
        pointer = Pointer(field, 1, 2) if refusal == SheetRefusal.WRONG_LENGTH else Pointer(field)
        return pointer if refusal == layout_refusal(field) else None
    if refusal == SheetRefusal.OUT_OF_RANGE:
        return wrong_number(field)
    # S24: at the tag
    return Pointer(field) if field.tag in TAGS_OF_REFUSAL.get(refusal, ()) else None


def is_sound(field: Field) -> bool:
    """Whether a field is good as far as its own bytes say."""
    return layout_refusal(field) == GOOD and wrong_number(field) is None


def pointers(sheet: List[Field], refusal: int) -> Iterator[Pointer]:
    """All that a refusal can point at in a sheet; the reader comes to the first field that is not sound."""
    for field in sheet:
        pointer = pointer_at(field, refusal)
        if pointer is not None:
            yield pointer
        if not is_sound(field):
            return


# ---------------------------------------------------------------------------
# What stands there
# ---------------------------------------------------------------------------


def allowed_words(part: Part) -> str:
    """The range of a number; one that has a single value stands in a field that may be missing."""
    first, last = part.allowed[0], part.allowed[-1]
    if first == last:
        return f"{first}, or no field"
    return f"{first} or {last}" if last == first + 1 else f"{first} to {last:,}"


def number_facts(pointer: Pointer) -> Dict[str, object]:
    """What the number is called that is pointed at, or that the field has whose tag is; its value, and its range."""
    number = next(number for number in numbers_in(pointer.field) if number.distance >= pointer.distance)
    return {"name": number.part.name, "number": number.value, "allowed": allowed_words(number.part)}


def facts_at(sheet: List[Field], pointer: Pointer) -> Dict[str, object]:
    """What can be said of the field that is pointed at, by the names in the sentences of SHEET_FAULTS."""
    field = pointer.field
    before = [other for other in sheet if other.place < field.place]
    handles = [other.value[0] for other in before if other.tag == Tag.HANDLE]
    facts: Dict[str, object] = {
        "tag": f"{field.tag:02x}",
        "length": field.length,
        "right": VALUE_BYTES.get(field.tag),
        "stand": f"follow field {before[-1].tag:02x}" if before else "stand first",
        "of_network": f" of network {handles[-1]}" if handles else "",
    }
    if layout_refusal(field) == GOOD:
        facts.update(number_facts(pointer))
    return facts


def marked_bytes(pointer: Pointer, most: int) -> str:
    """The bytes of the field, so many of them at most, with brackets around those that are pointed at."""
    words = [f"{byte:02x}" for byte in pointer.field.data[:most]]
    end = pointer.distance + pointer.size
    marked = "[" + " ".join(words[pointer.distance:end]) + "]"
    return " ".join([*words[:pointer.distance], marked, *words[end:]]) + (" ..." if len(pointer.field.data) > most else "")
