"""What demand 3 and the promises beside it say of a history, as `crates/network_demands/specs` and `crates/demands/specs` say it.

Written over calls, answers and records alone: nothing here looks into a manager. A history has the latest entry last. The words have the
names of the definitions (`up`, `rested`, `on`, `awaited`, `runs`, `granted`), and so have the figures; `broken` names every statement that is
false of a history.

A network does not see that the manager listens: in what it sees of an entry online is online, with whatever argument it went out, and a call
to listen is nothing. What listening itself brings is said of the entries as they are.
"""

from dataclasses import dataclass
from typing import Callable, Iterator, List, NamedTuple, Optional, Set, Tuple

from model import ACCEPTED, ControllerMode, EventManagerNotice, Kind, Limit, Mode, ModeManagerNotice, PduMode, Record, Refusal, Relation, Settings
from model import Outfit, TransceiverMode, outfit_of

TICK = "tick"
BUS_OFF = "bus-off"
STALL = "stall"
LISTEN = "listen"
ANSWER = "answer"
REQUEST = "request"
REPORT = "report"
CLEARED = "cleared"
CHECKED = "checked"
NOTHING = "nothing"
# What an answer of a controller says to the request.
NOT_OK = 0
OK = 1
# What a call to listen says.
OFF = 0
ON = 1
# The two forms in which online goes out, by kind and argument: as it is, and while the manager listens.
ONLINE = (Kind.PDU_MODE, PduMode.ONLINE)
TURNED = (Kind.PDU_MODE, PduMode.TX_OFFLINE_ACTIVE)
# The records that ask for something.
REQUEST_KINDS = (Kind.CONTROLLER_MODE, Kind.TRANSCEIVER_MODE, Kind.CLEAR_WAKE_FLAG, Kind.CHECK_WAKE_FLAG)


@dataclass
class Seen:
    """An entry as one network sees it: what the call is to it, its numbers, its answer, and the records that name its ids."""

    sight: str
    answer: int
    records: List[Record]
    values: Tuple[int, ...] = ()

    @property
    def accepted(self) -> bool:
        return self.answer == ACCEPTED

    def hands(self, kind: int, target: int, argument: int) -> bool:
        return (kind, target, argument) in self.records

    def has_kind(self, kind: int) -> bool:
        return any(record[0] == kind for record in self.records)


History = List[Seen]
Test = Callable[[Seen], bool]
# After a stall one tick asks to stop, one to start, and one tells full.
TICKS_OF_A_RESET = 3


class Call(NamedTuple):
    """A call of the manager since the start: its name, its numbers, and the bytes that it is lent."""

    name: str
    values: Tuple[int, ...] = ()
    lent: int = 0


class Entry(NamedTuple):
    """A call, the number that answers it, and all records that it hands out."""

    call: Call
    number: int
    records: List[Record]


def own_records(network: Settings, records: List[Record]) -> List[Record]:
    """The records that name an id of the network, by their kind."""
    transceiver = [] if network.transceiver is None else [network.transceiver]
    targets = {
        Kind.CONTROLLER_MODE: network.controllers,
        Kind.PDU_MODE: network.controllers,
        Kind.TRANSCEIVER_MODE: transceiver,
        Kind.CLEAR_WAKE_FLAG: transceiver,
        Kind.CHECK_WAKE_FLAG: transceiver,
    }
    return [record for record in records if record[1] in targets.get(record[0], [network.handle])]


def unturned(record: Record) -> Record:
    """Argument 2 of kind 3 stands for online; every other record is as it is."""
    kind, target, argument = record
    return (kind, target, PduMode.ONLINE) if (kind, argument) == TURNED else record


def plainly(call: Call, number: int, records: List[Record]) -> List[Record]:
    """The records of an entry as the rules of the networks make them. Of a call that sets or clears listening online is left out, in either form."""
    plain = [unturned(record) for record in records]
    if call.name == LISTEN and number == ACCEPTED:
        return [record for record in plain if (record[0], record[2]) != ONLINE]
    return plain


def view(network: Settings, call: Call, number: int, records: List[Record]) -> Seen:
    """How the network sees an entry: a refused tick is nothing, and so is a bus-off or a stall that was refused for lack of room, and every call
    to listen."""
    short = number == Refusal.BUFFER_TOO_SHORT
    sight = NOTHING
    if call.name == TICK and number == ACCEPTED:
        sight = TICK
    elif call.name == BUS_OFF and call.values[0] in network.controllers:
        if not (short and call.lent < Limit.BUS_OFF_BYTES):
            sight = BUS_OFF
    elif call.name == STALL and call.values[0] == network.handle:
        if not (short and call.lent < Limit.STALL_BYTES):
            sight = STALL
    elif call.name == ANSWER and call.values[0] in network.controllers:
        sight = ANSWER
    elif call.name == REQUEST and call.values[0] == network.handle:
        sight = REQUEST
    elif call.name in (REPORT, CLEARED, CHECKED) and call.values[0] == network.transceiver:
        sight = call.name
    return Seen(sight, number, own_records(network, plainly(call, number, records)), call.values)


# ---------------------------------------------------------------------------
# The words
# ---------------------------------------------------------------------------


def since(test: Test, history: History) -> History:
    """What follows the last entry that passes the test; all, where none does."""
    for place in range(len(history) - 1, -1, -1):
        if test(history[place]):
            return history[place + 1:]
    return history


def ticked(entry: Seen) -> bool:
    return entry.sight == TICK


def fell(entry: Seen) -> bool:
    return entry.sight == BUS_OFF


def stalled(entry: Seen) -> bool:
    """A stall of the network that was accepted: one that was refused changes nothing."""
    return entry.sight == STALL and entry.accepted


def struck(entry: Seen) -> bool:
    """A bus-off or a stall that was accepted: what stood asked for no longer does."""
    return (fell(entry) and entry.accepted) or stalled(entry)


def ticks(history: History) -> int:
    return sum(ticked(entry) for entry in history)


def record_count(part: History) -> int:
    """How many records a part of a history has that name the network's ids."""
    return sum(len(entry.records) for entry in part)


def grants(record: Record, entry: Seen) -> bool:
    """A call that says ok to the request or reports what it asks for, whatever the box answers to it."""
    kind, target, argument = record
    if kind == Kind.CONTROLLER_MODE:
        return entry.sight == ANSWER and entry.values == (target, argument, OK)
    if kind == Kind.TRANSCEIVER_MODE:
        return entry.sight == REPORT and entry.values[1] == argument
    return entry.sight == {Kind.CLEAR_WAKE_FLAG: CLEARED, Kind.CHECK_WAKE_FLAG: CHECKED}[kind]


def denies(record: Record, entry: Seen) -> bool:
    """A call that says not ok to the request, which only a controller can."""
    kind, target, argument = record
    return kind == Kind.CONTROLLER_MODE and entry.sight == ANSWER and entry.values == (target, argument, NOT_OK)


def granted(record: Record, part: History) -> bool:
    """Since the last tick of the part, the last call that answers the request says ok."""
    for entry in reversed(part):
        if ticked(entry) or denies(record, entry):
            return False
        if grants(record, entry):
            return True
    return False


def last_handed(part: History) -> List[Record]:
    """What the last tick of the part handed out; nothing, where there is none."""
    return next((entry.records for entry in reversed(part) if ticked(entry)), [])


def all_granted(part: History) -> bool:
    """Each request that the last tick of the part handed out is granted."""
    return all(granted(record, part) for record in last_handed(part) if record[0] in REQUEST_KINDS)


class Words:
    """The words of demand 3 and of good ticks, for one network."""

    def __init__(self, network: Settings):
        self.network = network
        self.handle = network.handle
        self.shutdown_record = (Kind.MODE_MANAGER, network.handle, ModeManagerNotice.NO)

    def tells(self, mode: int) -> Test:
        record = (Kind.COMMUNICATION_MANAGER, self.handle, mode)
        return lambda entry: record in entry.records

    def shut(self, entry: Seen) -> bool:
        return self.shutdown_record in entry.records

    def cleared(self, entry: Seen) -> bool:
        return entry.hands(Kind.EVENT_MANAGER, self.handle, EventManagerNotice.PASSED)

    def setback(self, entry: Seen) -> bool:
        """A moment after which every controller must have answered anew."""
        return fell(entry) or self.shut(entry) or stalled(entry)

    def last_setback(self, history: History) -> int:
        """The place of the last setback; -1 where there is none."""
        return len(history) - len(since(self.setback, history)) - 1

    def told(self, history: History) -> int:
        for entry in reversed(history):
            for record in reversed(entry.records):
                if record[0] == Kind.COMMUNICATION_MANAGER and record[1] == self.handle:
                    return record[2]
        return Mode.NO

    def wanted(self, history: History) -> int:
        for entry in reversed(history):
            if entry.sight == REQUEST and entry.accepted:
                return entry.values[1]
        return Mode.NO

    def wanted_at_tick(self, history: History) -> int:
        for place in range(len(history) - 1, -1, -1):
            if ticked(history[place]):
                return self.wanted(history[:place])
        return Mode.NO

    def up(self, history: History) -> bool:
        return any(self.tells(Mode.FULL)(entry) for entry in since(self.shut, history))

    def rested(self, history: History) -> bool:
        return any(self.tells(Mode.NO)(entry) for entry in since(self.shut, history))

    def called_up(self, history: History) -> bool:
        """Full was wanted at some tick since no was last told."""
        begin = len(history) - len(since(self.tells(Mode.NO), history))
        return any(ticked(history[place]) and self.wanted(history[:place]) == Mode.FULL for place in range(begin, len(history)))

    def on(self, history: History) -> bool:
        """It came to rest, and was called up since."""
        return self.called_up(history) and self.rested(history)

    def at_rest(self, history: History) -> bool:
        """It came to rest, and was not called up since."""
        return not self.called_up(history) and self.rested(history)

    def asked_to_start(self, controller: int, history: History) -> bool:
        return any(entry.hands(Kind.CONTROLLER_MODE, controller, ControllerMode.STARTED) for entry in history)

    def runs(self, controller: int, history: History) -> bool:
        """Its last accepted answer to the request to start is ok, and it was asked before."""
        for place in range(len(history) - 1, -1, -1):
            entry = history[place]
            if entry.sight == ANSWER and entry.accepted and entry.values[:2] == (controller, ControllerMode.STARTED):
                return entry.values[2] == OK and self.asked_to_start(controller, history[:place])
        return False

    def all_run(self, history: History) -> bool:
        return all(self.runs(controller, history) for controller in self.network.controllers)

    def fell_up(self, place: int, history: History) -> bool:
        """The entry at this place is a bus-off while up."""
        return place >= 0 and fell(history[place]) and self.up(history[:place])

    def quieted(self, entry: Seen) -> bool:
        """TX offline went to a controller of the network."""
        return any(entry.hands(Kind.PDU_MODE, controller, PduMode.TX_OFFLINE) for controller in self.network.controllers)

    def restarting(self, history: History) -> bool:
        """A bus-off while up came since the last TX offline and since the last shutdown."""
        begin = len(history) - len(since(lambda entry: self.quieted(entry) or self.shut(entry), history))
        return any(self.fell_up(place, history) for place in range(begin, len(history)))

    def counts(self, place: int, history: History) -> bool:
        """The entry at this place is a bus-off while up, and not while restarting: both are read off what went before it."""
        return self.fell_up(place, history) and not self.restarting(history[:place])

    def falls(self, history: History) -> int:
        """The bus-offs that count, since the last all-clear."""
        count = 0
        for place, entry in enumerate(history):
            if self.cleared(entry):
                count = 0
            elif self.counts(place, history):
                count += 1
        return count

    def delay_at(self, history: History) -> int:
        """The long delay where those that count exceed the threshold; by the newer rule of a network, where they come up to it."""
        return self.network.long_delay if exceeds(self.network, self.falls(history)) else self.network.short_delay

    def owed(self, history: History) -> int:
        """The delay that the last setback brings: that of a bus-off while up, else none."""
        place = self.last_setback(history)
        return self.delay_at(history[:place + 1]) if self.fell_up(place, history) else 0

    def first_running(self, part: History) -> int:
        """The number of the first tick of a part before which every controller runs within it; 0 where there is none."""
        for place, entry in enumerate(part):
            if ticked(entry) and self.all_run(part[:place]):
                return ticks(part[:place]) + 1
        return 0

    def duly(self, history: History) -> bool:
        part = since(self.setback, history)
        first = self.first_running(part)
        return 0 < first and first + self.owed(history) <= ticks(part) and self.wanted_at_tick(history) == Mode.FULL

    def awaited(self, kind: int, target: int, argument: int, history: History) -> bool:
        """The last tick handed out such a record, and neither a bus-off nor a stall was accepted since."""
        for entry in reversed(history):
            if ticked(entry):
                return entry.hands(kind, target, argument)
            if struck(entry):
                return False
        return False

    def stopped(self, controller: int, history: History) -> bool:
        """Its last accepted answer to the request to stop is ok."""
        for entry in reversed(history):
            if entry.sight == ANSWER and entry.accepted and entry.values[:2] == (controller, ControllerMode.STOPPED):
                return entry.values[2] == OK
        return False

    def released(self, entry: Seen) -> bool:
        """Full is said, silent is entered, the network falls, or its shutdown begins."""
        notices = (ModeManagerNotice.SILENT, ModeManagerNotice.BUS_OFF, ModeManagerNotice.NO)
        return self.tells(Mode.FULL)(entry) or any(entry.hands(Kind.MODE_MANAGER, self.handle, notice) for notice in notices)

    def held(self, history: History) -> bool:
        """A stall was accepted, and the network was not released since."""
        return any(stalled(entry) for entry in since(self.released, history))

    def sending(self, history: History) -> bool:
        """Full is told, or the network is held: its controllers were last set to send, or would have been without listening."""
        return self.told(history) == Mode.FULL or self.held(history)

    def all_stopped(self, history: History) -> bool:
        return all(self.stopped(controller, history) for controller in self.network.controllers)

    def good_ticks(self, number: int, part: History, before: History) -> bool:
        """Of the part that follows `before`: from its tick with this number on full is wanted at each; at each, all that its tick before handed
        out as requests is granted; no bus-off and no stall was accepted. Nothing is asked of what stood open before the part."""
        passed = 0
        for place, entry in enumerate(part):
            if struck(entry):
                return False
            if ticked(entry):
                passed += 1
                if passed >= number and self.wanted(before + part[:place]) != Mode.FULL:
                    return False
                if not all_granted(part[:place]):
                    return False
        return True

    def good_starts(self, history: History) -> List[int]:
        """The places from which on the ticks are good, with full wanted at all of them; the latest place first. What is good from one place on is
        good from each later one, so they are found from the end backwards."""
        starts = [len(history)]
        following: Optional[int] = None
        for place in range(len(history) - 1, -1, -1):
            if struck(history[place]):
                break
            if ticked(history[place]):
                unanswered = following is not None and not all_granted(history[place:following])
                if unanswered or self.wanted(history[:place]) != Mode.FULL:
                    break
                following = place
            starts.append(place)
        return starts


# ---------------------------------------------------------------------------
# The figures
# ---------------------------------------------------------------------------


def by_outfit(network: Settings, bare: int, fitted: int, partial: int) -> int:
    """One of three: without a transceiver, with one, and with partial networking."""
    figures = {Outfit.NO_TRANSCEIVER: bare, Outfit.TRANSCEIVER: fitted, Outfit.PARTIAL_NETWORKING: partial}
    return figures[outfit_of(network)]


def ticks_from_rest(network: Settings) -> int:
    """The number of the tick that tells full, from rest."""
    # F3: the third tick, and with a transceiver the fourth
    return by_outfit(network, 3, 4, 4)


def records_from_rest(network: Settings) -> int:
    # F4: three for each controller, and two more, or three with a transceiver
    return 3 * len(network.controllers) + by_outfit(network, 2, 3, 3)


def ticks_to_rest(network: Settings) -> int:
    """The number of the tick that tells no, from the start."""
    # F6: the third, fourth or sixth tick
    return by_outfit(network, 3, 4, 6)


def ticks_from_start(network: Settings) -> int:
    """The number of the tick that tells full, from the start."""
    # F6: the sixth, eighth or tenth tick
    return by_outfit(network, 6, 8, 10)


def records_from_start(network: Settings) -> int:
    # F7: five for each controller, and three, five or seven more
    return 5 * len(network.controllers) + by_outfit(network, 3, 5, 7)


def exceeds(network: Settings, count: int) -> bool:
    """So many bus-offs bring the long delay: more than the threshold, or by the newer rule at least as many."""
    return network.threshold <= count if network.relation == Relation.AT_OR_ABOVE else network.threshold < count


def longest_delay(network: Settings) -> int:
    # F8: the long one, or the short one where that is longer and the first bus-off does not bring the long one yet
    return network.long_delay if exceeds(network, 1) else max(network.long_delay, network.short_delay)


def most_ticks(network: Settings) -> int:
    """So many good ticks are enough from anywhere."""
    # F8: 6, 8 or 11, or the longest delay and two, whichever is more
    return max(by_outfit(network, 6, 8, 11), longest_delay(network) + 2)


# ---------------------------------------------------------------------------
# The statements
# ---------------------------------------------------------------------------


def full_on_just(words: Words, due: int, mode: int, part: History, history: History) -> bool:
    """Of the part at the end of a history: up to its tick with the number `due` that mode is the one last told, and full from it on; and its last
    entry says full exactly if it is that tick."""
    passed = ticks(part)
    told = words.told(history) == (Mode.FULL if passed >= due else mode)
    says_full = any(words.tells(Mode.FULL)(entry) for entry in part[-1:])
    on_this_tick = any(ticked(entry) for entry in part[-1:]) and passed == due
    return told and says_full == on_this_tick


def broken_by_told(words: Words, history: History) -> List[str]:
    """Of the whole history: exactly when full is told, and when no is."""
    found = []
    if (words.told(history) == Mode.FULL) != words.duly(history):
        found.append("told-exactly")
    was_full = any(words.tells(Mode.FULL)(entry) for entry in since(words.tells(Mode.NO), history))
    if (words.told(history) == Mode.NO) == was_full:
        found.append("told-no")
    if words.told(history) == Mode.FULL and not words.all_run(since(words.setback, history)):
        found.append("answered")
    return found


def broken_by_delay(words: Words, history: History) -> List[str]:
    """After a bus-off while up, however late the answers are: full not before the delay and two ticks, and exactly when it is due.

    The first holds as long as there is no further bus-off and no shutdown: a stall is taken only while full is told, so it comes later. The
    second holds as long as there is no further setback at all."""
    found = []
    full = words.told(history) == Mode.FULL
    falling = len(history) - len(since(lambda entry: fell(entry) or words.shut(entry), history)) - 1
    if words.fell_up(falling, history) and full and ticks(history[falling + 1:]) < words.delay_at(history[:falling + 1]) + 2:
        found.append("delayed")
    place = words.last_setback(history)
    if words.fell_up(place, history):
        part = history[place + 1:]
        first = words.first_running(part)
        over = 0 < first and first + words.delay_at(history[:place + 1]) <= ticks(part)
        if full != (over and words.wanted_at_tick(history) == Mode.FULL) or first == 1:
            found.append("late-answers")
    return found


def broken_by_one_fault(words: Words, history: History) -> List[str]:
    """After a bus-off while up no bus-off more counts, and none is forgotten, until TX offline or a shutdown."""
    begin = len(history) - len(since(lambda entry: words.quieted(entry) or words.shut(entry), history))
    falling = [place for place in range(begin - 1, len(history)) if words.fell_up(place, history)]
    same = all(words.falls(history[:place + 1]) == words.falls(history) for place in falling)
    return [] if same else ["one-fault"]


def broken_by_good_times(words: Words, history: History) -> List[str]:
    """Where the ticks are good since the last setback, full is told on just one: after a bus-off while up on that of the delay and two,
    after a stall on the third."""
    place = words.last_setback(history)
    if words.fell_up(place, history):
        name, due = "on-just-that-tick", words.delay_at(history[:place + 1]) + 2
    elif place >= 0 and stalled(history[place]):
        name, due = "third-tick", TICKS_OF_A_RESET
    else:
        return []
    if not words.good_ticks(1, history[place + 1:], history[:place + 1]):
        return []
    return [] if full_on_just(words, due, Mode.SILENT, history[place + 1:], history) else [name]


def broken_from_rest(words: Words, history: History) -> List[str]:
    """With good ticks from rest on, wherever they begin: full on just one tick, and so many records up to it."""
    due = ticks_from_rest(words.network)
    found = []
    for start in words.good_starts(history):
        part = history[start:]
        names = [] if full_on_just(words, due, Mode.NO, part, history) else ["from-rest"]
        if ticks(part) == due and record_count(part) != records_from_rest(words.network):
            names.append("records-from-rest")
        # this is looked at last, since it takes the longest
        if names and words.at_rest(history[:start]):
            found += names
    return found


def broken_from_start(words: Words, history: History) -> List[str]:
    """With good ticks from the start on: no on just one tick, full on just one, and so many records up to it; what is wanted before no is told does
    not matter."""
    network, last, passed = words.network, history[-1], ticks(history)
    rest, due = ticks_to_rest(network), ticks_from_start(network)
    if not words.good_ticks(rest + 1, history, []):
        return []
    found = []
    if ticked(last) and words.tells(Mode.NO)(last) != (passed == rest):
        found.append("to-rest")
    if not full_on_just(words, due, Mode.NO, history, history):
        found.append("from-start")
    if passed == due and record_count(history) != records_from_start(network):
        found.append("records-from-start")
    return found


def broken_from_anywhere(words: Words, history: History) -> List[str]:
    """Whatever went before, full is told after enough good ticks; of all the parts at the end that are good the longest has the most."""
    longest = history[words.good_starts(history)[-1]:]
    stuck = ticks(longest) >= most_ticks(words.network) and words.told(history) != Mode.FULL
    return ["never-stuck"] if stuck else []


def broken_by_stall(words: Words, entry: Seen, before: History) -> List[str]:
    """A stall is accepted exactly if full is told, and then hands out just 6 silent; else it is refused with 22 and hands out nothing."""
    if entry.sight != STALL:
        return []
    due = words.told(before) == Mode.FULL
    found = []
    if entry.answer != (ACCEPTED if due else Refusal.NOT_TAKEN):
        found.append("stall-accepted")
    if entry.records != ([(Kind.COMMUNICATION_MANAGER, words.handle, Mode.SILENT)] if entry.accepted else []):
        found.append("stall-records")
    return found


def broken_by_bus_off(words: Words, entry: Seen, before: History) -> List[str]:
    if not fell(entry):
        return []
    handle = words.handle
    due = [
        (Kind.EVENT_MANAGER, handle, EventManagerNotice.PREFAILED),
        (Kind.COMMUNICATION_MANAGER, handle, Mode.SILENT),
        (Kind.MODE_MANAGER, handle, ModeManagerNotice.BUS_OFF),
    ]
    begun = [words.asked_to_start(controller, since(words.shut, before)) for controller in words.network.controllers]
    found = []
    if entry.records != (due if words.up(before) else []):
        found.append("bus-off-records")
    if any(asked != entry.accepted for asked in begun):
        found.append("bus-off-accepted")
    return found


def broken_by_answer(words: Words, entry: Seen, before: History) -> List[str]:
    if entry.sight == ANSWER:
        controller, mode, ok = entry.values
        due = mode <= Limit.MODE and ok <= Limit.OK and words.awaited(Kind.CONTROLLER_MODE, controller, mode, before)
    elif entry.sight == REPORT:
        transceiver, mode = entry.values
        due = mode <= Limit.MODE and words.awaited(Kind.TRANSCEIVER_MODE, transceiver, mode, before)
    elif entry.sight in (CLEARED, CHECKED):
        kind = Kind.CLEAR_WAKE_FLAG if entry.sight == CLEARED else Kind.CHECK_WAKE_FLAG
        due = words.awaited(kind, entry.values[0], 0, before)
    else:
        return []
    return [] if entry.accepted == due else ["answer-taken"]


def broken_by_request(words: Words, entry: Seen, before: History) -> List[str]:
    """Which requests are accepted, and exactly when each of their refusals is given."""
    if entry.sight != REQUEST:
        return []
    mode = entry.values[1]
    silent = mode == Mode.SILENT
    due = {
        "request-accepted": (ACCEPTED, mode <= Limit.MODE and (not silent or words.up(before))),
        "request-out-of-range": (Refusal.VALUE_OUT_OF_RANGE, mode > Limit.MODE),
        "silent-asleep": (Refusal.ASLEEP, silent and words.rested(before) and not words.on(before)),
        "silent-coming-up": (Refusal.COMING_UP, silent and words.on(before) and not words.up(before)),
        "silent-going-down": (Refusal.GOING_DOWN, silent and not words.rested(before)),
    }
    return [name for name, (number, holds) in due.items() if (entry.answer == number) != holds]


def broken_by_full(words: Words, entry: Seen, before: History) -> List[str]:
    """When full is told, and what goes with it."""
    found = []
    after = before + [entry]
    wants_full = words.wanted(before) == Mode.FULL
    tells_full = words.tells(Mode.FULL)(entry)
    if ticked(entry) and words.told(before) == Mode.FULL and (words.told(after) == Mode.FULL) != wants_full:
        found.append("full-stays")
    if tells_full and not (ticked(entry) and words.told(before) != Mode.FULL and wants_full):
        found.append("full-told-by")
    since_full = since(words.tells(Mode.FULL), after)
    passed = ticked(entry) and words.told(after) == Mode.FULL and ticks(since_full) == words.network.ensure_time
    if words.cleared(entry) != passed:
        found.append("passed")
    if any(entry.hands(Kind.PDU_MODE, controller, PduMode.ONLINE) != tells_full for controller in words.network.controllers):
        found.append("online-with-full")
    if words.told(after) == Mode.FULL and entry.has_kind(Kind.CONTROLLER_MODE):
        found.append("full-asks-nothing")
    return found


def broken_by_silent(words: Words, entry: Seen, before: History) -> List[str]:
    """When silent is entered and controllers go TX offline: with the wait after a bus-off while up, and where silent is wanted and is entered,
    which is never while restarting."""
    found = []
    after = before + [entry]
    notes_silent = entry.hands(Kind.MODE_MANAGER, words.handle, ModeManagerNotice.SILENT)
    if notes_silent and (words.wanted(before) != Mode.SILENT or words.restarting(before)):
        found.append("silent-entered")
    part = since(words.setback, after)
    wait_begins = ticked(entry) and words.owed(after) > 0 and words.first_running(part) == ticks(part)
    quiet = [entry.hands(Kind.PDU_MODE, controller, PduMode.TX_OFFLINE) for controller in words.network.controllers]
    if any(goes != (notes_silent or wait_begins) for goes in quiet):
        found.append("offline")
    return found


def broken_by_down(words: Words, entry: Seen, before: History) -> List[str]:
    """When a shutdown begins, and what goes out before a network has come to rest."""
    found = []
    handle = words.handle
    goes_down = ticked(entry) and words.wanted(before) == Mode.NO and words.on(before)
    if words.shut(entry) != goes_down:
        found.append("shutdown")
    if words.shut(entry):
        notices = [(Kind.MODE_MANAGER, handle, ModeManagerNotice.NO)]
        if words.told(before) == Mode.FULL:
            notices.append((Kind.COMMUNICATION_MANAGER, handle, Mode.SILENT))
        rest = entry.records[len(notices):]
        if entry.records[:len(notices)] != notices or any(record[0] >= Kind.COMMUNICATION_MANAGER for record in rest):
            found.append("shutdown-first")
    if not words.rested(before):
        asks = any(entry.hands(Kind.CONTROLLER_MODE, controller, ControllerMode.STARTED) for controller in words.network.controllers)
        if asks or entry.has_kind(Kind.PDU_MODE) or words.tells(Mode.FULL)(entry):
            found.append("not-rested")
    return found


def stopped_and_normal(words: Words, part: History) -> bool:
    """Every controller's last accepted answer on stopped is ok; where there is a transceiver, it reported normal."""
    normal = any(entry.sight == REPORT and entry.accepted and entry.values[1] == TransceiverMode.NORMAL for entry in part)
    return words.all_stopped(part) and (words.network.transceiver is None or normal)


def broken_by_start(words: Words, entry: Seen, before: History) -> List[str]:
    """When controllers are asked to start, and how many records go out."""
    found = []
    place = words.last_setback(before)
    after_stall = place >= 0 and stalled(before[place])
    for controller in words.network.controllers:
        if entry.hands(Kind.CONTROLLER_MODE, controller, ControllerMode.STARTED):
            if not (ticked(entry) and words.on(before) and words.wanted(before) != Mode.NO):
                found.append("start-asked")
            first = not words.asked_to_start(controller, since(words.shut, before))
            if first and not stopped_and_normal(words, since(words.tells(Mode.NO), before)):
                found.append("start-after-stop")
            first = not words.asked_to_start(controller, before[place + 1:])
            if after_stall and first and not words.all_stopped(before[place + 1:]):
                found.append("start-after-stall")
    # F5: of a tick two more than there are controllers
    most = {TICK: len(words.network.controllers) + 2, BUS_OFF: 3, STALL: 1}.get(entry.sight, 0)
    if len(entry.records) > most:
        found.append("few-records")
    return found


# ---------------------------------------------------------------------------
# Listening, of the entries as they are
# ---------------------------------------------------------------------------


def listening(entries: List[Entry]) -> bool:
    """The value of the last accepted call to listen is 1; without such a call the manager does not listen."""
    for call, number, _ in reversed(entries):
        if call.name == LISTEN and number == ACCEPTED:
            return call.values[0] == ON
    return False


def online_as(is_listening: bool) -> int:
    """The argument with which online goes out."""
    return PduMode.TX_OFFLINE_ACTIVE if is_listening else PduMode.ONLINE


def last_pdu(controller: int, entries: List[Entry]) -> Optional[int]:
    """The argument of the last record of kind 3 that a controller was handed; None where there was none."""
    for _, _, records in reversed(entries):
        for kind, target, argument in reversed(records):
            if (kind, target) == (Kind.PDU_MODE, controller):
                return argument
    return None


def listen_number(networks: List[Settings], call: Call) -> int:
    """What a call to listen is answered with."""
    # R9, R24: three bytes for each controller of all networks, before the value is looked at
    if call.lent < Limit.RECORD_BYTES * sum(len(network.controllers) for network in networks):
        return Refusal.BUFFER_TOO_SHORT
    # R13: 0 or 1
    return Refusal.VALUE_OUT_OF_RANGE if call.values[0] > Limit.LISTEN else ACCEPTED


def broken_by_listening(networks: List[Settings], entries: List[Entry]) -> List[str]:
    """Of the last entry: while the manager listens it hands out no online, and while it does not, none in the other form. How a call to listen is
    answered; and where it changes nothing, or is refused, it hands out nothing."""
    call, number, records = entries[-1]
    found = []
    forms = [(kind, argument) for kind, _, argument in records]
    if listening(entries) and ONLINE in forms:
        found.append("quiet")
    if not listening(entries) and TURNED in forms:
        found.append("aloud")
    if call.name == LISTEN and number != listen_number(networks, call):
        found.append("listen-answered")
    if call.name == LISTEN and listening(entries) == listening(entries[:-1]) and records:
        found.append("again")
    return found


def broken_in_a_network(words: Words, entries: List[Entry], seen: History) -> List[str]:
    """Where a network's controllers were last set to send, that was in the form that is in force. A call that changes the form hands it out there for
    each controller, in order, and elsewhere nothing."""
    controllers, in_force = words.network.controllers, online_as(listening(entries))
    found = []
    if words.sending(seen) and any(last_pdu(controller, entries) != in_force for controller in controllers):
        found.append("last")
    if listening(entries) != listening(entries[:-1]):
        due = [(Kind.PDU_MODE, controller, in_force) for controller in controllers] if words.sending(seen[:-1]) else []
        if own_records(words.network, entries[-1].records) != due:
            found.append("anew")
    return found


def faults_of_listening(networks: List[Settings], entries: List[Entry]) -> Iterator[Tuple[int, Set[str]]]:
    """Each entry, by its number from 1, after which some statement on listening is false, with the names of those."""
    views = [(Words(network), [view(network, *entry) for entry in entries]) for network in networks]
    for number in range(1, len(entries) + 1):
        part = entries[:number]
        names = set(broken_by_listening(networks, part))
        for words, seen in views:
            names.update(broken_in_a_network(words, part, seen[:number]))
        if names:
            yield number, names


STATEMENTS_OF_A_HISTORY = (
    broken_by_told, broken_by_delay, broken_by_one_fault, broken_by_good_times, broken_from_rest, broken_from_start, broken_from_anywhere,
)
STATEMENTS_OF_AN_ENTRY = (
    broken_by_bus_off, broken_by_stall, broken_by_answer, broken_by_request, broken_by_full, broken_by_silent, broken_by_down,
    broken_by_start,
)


def broken_after(words: Words, number: int, history: History) -> List[str]:
    """The names of the statements that are false after so many entries of a history."""
    before, entry = history[:number - 1], history[number - 1]
    names = [name for statement in STATEMENTS_OF_A_HISTORY for name in statement(words, before + [entry])]
    names += [name for statement in STATEMENTS_OF_AN_ENTRY for name in statement(words, entry, before)]
    return sorted(set(names))


def broken(network: Settings, history: History) -> Optional[Tuple[int, List[str]]]:
    """The first entry, by its number from 1, after which some statement is false, with the names of those; None where all hold."""
    words = Words(network)
    for number in range(1, len(history) + 1):
        names = broken_after(words, number, history)
        if names:
            return number, names
    return None


def ever_broken(network: Settings, history: History) -> Set[str]:
    """The names of all statements that are false after some entry of a history."""
    words = Words(network)
    return {name for number in range(1, len(history) + 1) for name in broken_after(words, number, history)}
