"""The words for what a recording and its output hold: events, records and refusals. They are those of docs/RULES.md.

The explanation of an output and the picture of a recovery are made of these. A record has short words too: an arrow of the picture has
little room, and its columns are headed by the network and its controllers.
"""

from typing import NamedTuple

from recording_fields import Field, Mode, SheetRefusal, Tag
from recording_script import parts_of


class Kind:
    """The kinds of records."""

    CONTROLLER_MODE = 1
    TRANSCEIVER_MODE = 2
    PDU_MODE = 3
    CLEAR_WAKE_FLAG = 4
    CHECK_WAKE_FLAG = 5
    COMMUNICATION_MANAGER = 6
    MODE_MANAGER = 7
    EVENT_MANAGER = 8


class Record(NamedTuple):
    """A record that is handed out."""

    kind: int
    target: int
    argument: int


class RecordWords(NamedTuple):
    """What a record says: in a sentence, and on an arrow."""

    sentence: str
    short: str


TX_OFFLINE = 1
TX_OFFLINE_ACTIVE = 2
NO_COMMUNICATION = 0

CALL_REFUSALS = {
    0x01: "there is no started manager, or no sheet",
    0x0B: "the manager is started already",
    0x20: "the lent buffer is too short",
    0x03: "unknown handle",
    0x04: "unknown controller",
    0x05: "unknown transceiver",
    0x21: "a mode, an ok value or a value to listen is out of its range",
    0x08: "silent is wanted while the network is asleep (step 0)",
    0x24: "silent is wanted while the network comes up (steps 1 to 3)",
    0x25: "silent is wanted while the network goes down (steps 9 to 14)",
    0x22: "an answer, bus-off or stall that the step does not take",
}
# By the event that is refused, what to do about it.
ADVICE = {
    # R14, R22, R23: of silent.
    Tag.REQUEST: {
        0x08: "ask for full first; when full is told, ask for silent",
        0x24: "wait; when full is told, ask for silent again",
        0x25: "wait until no is told, then ask for full; when full is told, ask for silent",
    },
    # R9, R10, R15: of a stall.
    Tag.STALL: {
        0x20: "it has not happened: lend 3 bytes or more, and make it again",
        0x03: "compare the caller's handles with the sheet",
        0x22: "it is taken only while full is told: if sending sticks then, make it again",
    },
    # R9, R13, R24: of a call to listen.
    Tag.LISTEN: {
        0x20: "it has not happened: lend 3 bytes for each controller of the sheet or more, and make it again",
        0x21: "1 sets listening, and 0 clears it",
    },
}
# S27: of a network in whose sheet field 07 stands, by its handle and its threshold.
AT_THE_THRESHOLD = "network {}: the long delay at the threshold of {} already"
# X3: what a stall brings.
STALL_OUTLOOK = "the next tick asks all its controllers to stop, a later one to start"
# L2: what a change of listening brings for those that become full later.
LISTEN_OUTLOOK = {
    1: "from here on a network that becomes full hears and does not send",
    0: "from here on a network that becomes full may send",
}
# B2: what a bus-off says in step 6.
SAME_FAULT = "taken for the same fault, which is counted already"
# T29, T30: behind a request that belongs to the reset.
OF_A_RESET = ", for the reset"
SHEET_REFUSALS = {
    SheetRefusal.CUT: "a field is cut, or the last network is unfinished",
    SheetRefusal.UNKNOWN_TAG: "unknown tag",
    SheetRefusal.WRONG_LENGTH: "the length is not that of the tag",
    SheetRefusal.WRONG_ORDER: "the tag is not allowed here by the order of fields",
    SheetRefusal.OUT_OF_RANGE: "the value is out of its range",
    SheetRefusal.USED_BEFORE: "the id is used before",
    SheetRefusal.TOO_MANY: "a ninth network or a fifth controller",
    SheetRefusal.NO_TRANSCEIVER: "partial networking without a transceiver",
    SheetRefusal.NO_NETWORK: "no network at all",
}
# What a refusal points at, by the field that stands there.
SHEET_FAULTS = {
    SheetRefusal.CUT: "field {tag} is cut by the end of the sheet",
    SheetRefusal.UNKNOWN_TAG: "there is no field {tag}",
    SheetRefusal.WRONG_LENGTH: "the length of field {tag} is {length:,}, must be {right}",
    SheetRefusal.WRONG_ORDER: "field {tag} may not {stand}",
    SheetRefusal.OUT_OF_RANGE: "{name}{of_network} is {number}, must be {allowed}",
    SheetRefusal.USED_BEFORE: "{name} {number} is used before",
    SheetRefusal.TOO_MANY: "{name} {number} is one too many",
    SheetRefusal.NO_TRANSCEIVER: "{name}{of_network} is {number}, and it has no transceiver",
}
# The same where no field stands: there is none, or the last one is over.
NO_SHEET = "there is no sheet"
SHEET_ENDS = "the sheet ends there"

# By kind and argument: all records that there are.
RECORD_WORDS = {
    (Kind.CONTROLLER_MODE, 0): RecordWords("ask controller {} to stop", "stop controller {}"),
    (Kind.CONTROLLER_MODE, 1): RecordWords("ask controller {} to start", "start controller {}"),
    (Kind.CONTROLLER_MODE, 2): RecordWords("ask controller {} to sleep", "put controller {} to sleep"),
    (Kind.TRANSCEIVER_MODE, 0): RecordWords("ask transceiver {} to go to normal", "transceiver {} normal"),
    (Kind.TRANSCEIVER_MODE, 1): RecordWords("ask transceiver {} to go to standby", "transceiver {} standby"),
    (Kind.PDU_MODE, 0): RecordWords("allow controller {} to send (online)", "controller {} online"),
    (Kind.PDU_MODE, TX_OFFLINE): RecordWords("forbid controller {} to send (TX offline)", "controller {} TX offline"),
    (Kind.PDU_MODE, TX_OFFLINE_ACTIVE): RecordWords("let controller {} hear and not send (TX offline, active)", "controller {} hears only"),
    (Kind.CLEAR_WAKE_FLAG, 0): RecordWords("ask transceiver {} to clear its wake flag", "clear wake flag of {}"),
    (Kind.CHECK_WAKE_FLAG, 0): RecordWords("ask transceiver {} to check its wake flag", "check wake flag of {}"),
    (Kind.COMMUNICATION_MANAGER, Mode.NO): RecordWords("tell the communication manager: network {} no communication", "told no"),
    (Kind.COMMUNICATION_MANAGER, Mode.SILENT): RecordWords("tell the communication manager: network {} silent", "told silent"),
    (Kind.COMMUNICATION_MANAGER, Mode.FULL): RecordWords("tell the communication manager: network {} full", "told full"),
    (Kind.MODE_MANAGER, Mode.NO): RecordWords("tell the mode manager: network {} no communication", "mode manager: no"),
    (Kind.MODE_MANAGER, Mode.SILENT): RecordWords("tell the mode manager: network {} silent", "mode manager: silent"),
    (Kind.MODE_MANAGER, Mode.FULL): RecordWords("tell the mode manager: network {} full", "mode manager: full"),
    (Kind.MODE_MANAGER, 3): RecordWords("tell the mode manager: network {} bus-off", "mode manager: bus-off"),
    (Kind.EVENT_MANAGER, 0): RecordWords("report to the event manager: network {} bus-off passed", "event manager: passed"),
    (Kind.EVENT_MANAGER, 1): RecordWords("report to the event manager: network {} bus-off prefailed", "event manager: prefailed"),
}
EVENT_WORDS = {
    Tag.REQUEST: "{1} is wanted of network {0}",
    Tag.BUS_OFF: "bus-off of controller {0}",
    Tag.ANSWER: "controller {0} answers: {1}, {2}",
    Tag.TRANSCEIVER_MODE: "transceiver {0} reports: {1}",
    Tag.CLEAR_DONE: "wake flag of transceiver {0} cleared",
    Tag.CHECK_DONE: "wake flag of transceiver {0} checked",
    Tag.TICK: "tick",
    Tag.POLL: "poll of network {0}",
    Tag.STALL: "sending of network {0} has stuck",
    Tag.LISTEN: "listening is {0}",
}
LISTEN_WORDS = {1: "set", 0: "cleared"}
MODE_WORDS = {Mode.NO: "no communication", Mode.SILENT: "silent", Mode.FULL: "full"}


def event_words(field: Field) -> str:
    """An event in words."""
    parts = [" ".join(words) for words in parts_of(field)]
    if field.tag == Tag.REQUEST:
        parts[1] = MODE_WORDS.get(field.value[1], parts[1])
    if field.tag == Tag.LISTEN:
        parts[0] = LISTEN_WORDS.get(field.value[0], f"asked for with {parts[0]}")
    return EVENT_WORDS[field.tag].format(*parts)


def record_words(record: Record) -> str:
    """A record in a sentence."""
    return RECORD_WORDS[record.kind, record.argument].sentence.format(record.target)


def short_record_words(record: Record) -> str:
    """A record in a few words."""
    return RECORD_WORDS[record.kind, record.argument].short.format(record.target)
