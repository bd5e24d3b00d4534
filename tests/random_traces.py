"""Random inputs for `cantrace`: long good traces for the most part, and damaged ones.

A good trace is played in a closed loop by a driver that is mostly diligent: it answers most requests ok, some late, some not
at all, some refused, some with another mode or id; it asks for modes, and lets bus-offs, stalls, calls to listen, polls and
nonsense come in between.
All randomness comes from the generator that is handed in.
"""

from copy import deepcopy
from dataclasses import dataclass
from random import Random
from typing import Callable, Dict, List, NamedTuple, Tuple

import model
from model import EventTag, Limit, Mode, Outfit, Relation, Step, Tag
from traces import NOT_OK, OFF, ON, Event, Trace, answer_to, field


class RandomInput(NamedTuple):
    """An input and the name of the way in which it was made."""

    way: str
    data: bytes


# ---------------------------------------------------------------------------
# Sheets
# ---------------------------------------------------------------------------


def random_times(random: Random) -> Tuple[int, int, int]:
    """Short delay, long delay and ensure time: small for the most part, so that they come to their end."""
    greatest = random.choice((1, 3, 3, 3, 5, 5, 12, 40, 300, 65535))
    return random.randint(1, greatest), random.randint(1, greatest), random.randint(1, greatest)


def random_networks(random: Random) -> List[model.Settings]:
    """One to eight networks of all outfits and by both rules for the threshold, with ids from the whole ranges."""
    number = random.choice((1, 1, 1, 1, 2, 2, 2, 3, 3, 4, 5, 6, 7, 8))
    handles = random.sample(range(256), number)
    controllers = random.sample(range(Limit.CONTROLLER_ID + 1), Limit.CONTROLLER_ID + 1)
    transceivers = random.sample(range(Limit.TRANSCEIVER_ID + 1), number)
    networks = []
    for handle, transceiver in zip(handles, transceivers):
        outfit = random.choice(model.ALL_OUTFITS)
        own = [controllers.pop() for _ in range(random.choice((1, 1, 1, 2, 2, 3, 4)))]
        networks.append(
            model.Settings(
                handle,
                own,
                None if outfit == Outfit.NO_TRANSCEIVER else transceiver,
                *random_times(random),
                random.choice((0, 0, 1, 1, 2, 3, 254, random.randint(0, Limit.THRESHOLD))),
                1 if outfit == Outfit.PARTIAL_NETWORKING else 0,
                random.choice(tuple(Relation)),
            )
        )
    return networks


# ---------------------------------------------------------------------------
# The driver
# ---------------------------------------------------------------------------


@dataclass
class Temper:
    """How often, from 0 to 1, a driver does something else than the diligent thing."""

    silence: float
    refusal: float
    lateness: float
    nonsense: float
    bus_off: float
    stall: float
    listening: float
    wish: float
    idleness: float


def random_temper(random: Random) -> Temper:
    """Diligent for the most part, with one trait or another that is not."""
    return Temper(
        silence=random.choice((0.0, 0.02, 0.1, 0.3)),
        refusal=random.choice((0.0, 0.02, 0.05, 0.2)),
        lateness=random.choice((0.0, 0.0, 0.05, 0.2)),
        nonsense=random.choice((0.0, 0.05, 0.2)),
        bus_off=random.choice((0.02, 0.1, 0.2, 0.4)),
        stall=random.choice((0.02, 0.1, 0.2, 0.4)),
        listening=random.choice((0.0, 0.05, 0.1, 0.3)),
        wish=random.choice((0.05, 0.1, 0.3)),
        idleness=random.choice((0.0, 0.05, 0.15)),
    )


class Driver:
    """The layer above and the layer below, at random."""

    def __init__(self, random: Random) -> None:
        self.random = random
        self.temper = random_temper(random)
        self.trace = Trace(*random_networks(random))
        self.late: List[Event] = []

    def happens(self, chance: float) -> bool:
        """Whether something of this chance comes about now."""
        return self.random.random() < chance

    def any_network(self) -> model.NetworkRecord:
        """One of the networks."""
        return self.random.choice(self.trace.manager.networks)

    def run(self, events: int) -> bytes:
        """Turns of events and a tick, until there are about so many events."""
        for network in self.trace.manager.networks:
            if self.happens(0.9):
                self.trace.event(EventTag.REQUEST, network.settings.handle, Mode.FULL)
        while self.trace.number_of_events() < events:
            self.turn()
        return b"".join(self.trace.fields[:events + 1])

    def turn(self) -> None:
        """What comes between two ticks, and a tick, or several in a row."""
        self.answer_requests()
        self.answer_late()
        self.request_modes()
        if self.happens(self.temper.bus_off):
            self.bus_offs()
        if self.happens(self.temper.stall):
            self.stall()
        if self.happens(self.temper.listening):
            self.listen()
        self.answer_late()
        if self.happens(0.1):
            self.trace.event(EventTag.POLL, self.any_network().settings.handle)
        if self.happens(self.temper.nonsense):
            self.trace.event(*self.nonsense())
        idle = self.random.randint(2, 15) if self.happens(self.temper.idleness) else 0
        self.trace.tick(1 + idle)

    def answer_requests(self) -> None:
        """Answer what the last tick asked for, mostly ok and mostly in order."""
        requests = list(self.trace.open_requests)
        if self.happens(0.3):
            self.random.shuffle(requests)
        for request in requests:
            self.answer_request(request)
        self.trace.open_requests = []

    def answer_request(self, request: model.Record) -> None:
        """Answer one request: ok, refused, later, wrongly or not at all."""
        if self.happens(self.temper.silence):
            return
        if self.happens(self.temper.lateness):
            self.late.append(answer_to(request))
        elif self.happens(self.temper.refusal):
            self.trace.event(*answer_to(request, NOT_OK))
        elif self.happens(self.temper.nonsense / 2):
            self.trace.event(*self.wrong_answer(answer_to(request)))
        else:
            self.trace.event(*answer_to(request))

    def wrong_answer(self, answer: Event) -> Event:
        """The answer with one of its values changed a little or wholly."""
        place = self.random.randrange(1, len(answer))
        value = self.random.choice(((answer[place] + 1) % 256, self.random.randrange(4), self.random.randrange(256)))
        return answer[:place] + (value,) + answer[place + 1:]

    def answer_late(self) -> None:
        """Some of the late answers come now."""
        waiting = self.late
        self.late = []
        for answer in waiting:
            if self.happens(0.5):
                self.trace.event(*answer)
            else:
                self.late.append(answer)

    def request_modes(self) -> None:
        """A change of mind now and then; a network without communication is mostly wanted full again."""
        network = self.any_network()
        handle = network.settings.handle
        if network.step == Step.NO_COMMUNICATION and network.wanted == Mode.NO and self.happens(0.6):
            self.trace.event(EventTag.REQUEST, handle, Mode.FULL)
        elif self.happens(self.temper.wish):
            self.trace.event(EventTag.REQUEST, handle, self.random.choice((2, 2, 2, 1, 1, 1, 0, 0, 3)))

    def bus_offs(self) -> None:
        """One bus-off or several, mostly in a network that is up."""
        up = [network for network in self.trace.manager.networks if network.step in model.UP_STEPS]
        network = self.random.choice(up) if up and self.happens(0.8) else self.any_network()
        for _ in range(self.random.choice((1, 1, 1, 2, 5))):
            self.trace.event(EventTag.BUS_OFF, self.random.choice(network.settings.controllers))

    def stall(self) -> None:
        """A stall, mostly of a network that is full; now and then a second one at once."""
        full = [network for network in self.trace.manager.networks if network.step in model.STALL_STEPS]
        network = self.random.choice(full) if full and self.happens(0.8) else self.any_network()
        for _ in range(self.random.choice((1, 1, 1, 1, 2))):
            self.trace.event(EventTag.STALL, network.settings.handle)

    def listen(self) -> None:
        """Listening is set where it is not, and cleared where it is; now and then it stays as it is, or the value is none."""
        other = OFF if self.trace.manager.listening else ON
        for _ in range(self.random.choice((1, 1, 1, 1, 2))):
            self.trace.listen(self.random.choice((other, other, other, ON, OFF, 2, 255)))

    def nonsense(self) -> Event:
        """An event with values that need not fit: ids of its own network or any, modes in range or beyond."""
        settings = self.any_network().settings
        tag = self.random.choice(tuple(model.LENGTH_OF_EVENT))
        ids = [settings.handle, settings.controllers[0], settings.transceiver or 0, self.random.randrange(256)]
        values = [self.random.choice(ids)] + [self.random.choice((0, 1, 2, 3, 255)) for _ in range(2)]
        return (tag, *values[:model.LENGTH_OF_EVENT[tag]])


# ---------------------------------------------------------------------------
# Damage
# ---------------------------------------------------------------------------


def flip(random: Random, data: bytes) -> bytes:
    """One byte becomes another: any, one more, or one that differs in a single bit."""
    place = random.randrange(len(data))
    old = data[place]
    new = random.choice((random.randrange(256), (old + 1) % 256, old ^ 1 << random.randrange(8)))
    return data[:place] + bytes([new]) + data[place + 1:]


def cut(random: Random, data: bytes) -> bytes:
    """The end is missing."""
    return data[:random.randrange(len(data))]


def drop(random: Random, data: bytes) -> bytes:
    """One byte is missing."""
    place = random.randrange(len(data))
    return data[:place] + data[place + 1:]


def insert(random: Random, data: bytes) -> bytes:
    """One byte is too many."""
    place = random.randrange(len(data) + 1)
    return data[:place] + bytes([random.randrange(256)]) + data[place:]


def split_fields(data: bytes) -> List[bytes]:
    """The fields of a row of whole fields."""
    fields = []
    place = 0
    while place < len(data):
        end = place + Limit.HEADER_BYTES + model.two_byte_number(data, place + 1)
        fields.append(data[place:end])
        place = end
    return fields


def swap_fields(random: Random, data: bytes) -> bytes:
    """Two fields change their places."""
    fields = split_fields(data)
    first, second = random.randrange(len(fields)), random.randrange(len(fields))
    fields[first], fields[second] = fields[second], fields[first]
    return b"".join(fields)


def double_field(random: Random, data: bytes) -> bytes:
    """A field stands twice, the second time anywhere."""
    fields = split_fields(data)
    fields.insert(random.randrange(len(fields) + 1), random.choice(fields))
    return b"".join(fields)


def drop_field(random: Random, data: bytes) -> bytes:
    """A field is missing."""
    fields = split_fields(data)
    fields.pop(random.randrange(len(fields)))
    return b"".join(fields)


def foreign_field(random: Random, data: bytes) -> bytes:
    """A whole field of any tag and a short value of any length stands among the others."""
    fields = split_fields(data)
    tag = random.choice((random.randrange(32), random.randrange(256)))
    value = [random.randrange(256) for _ in range(random.randrange(4))]
    fields.insert(random.randrange(len(fields) + 1), field(tag, *value))
    return b"".join(fields)


def wrong_length(random: Random, data: bytes) -> bytes:
    """A field says a length that may be another than it has."""
    fields = split_fields(data)
    chosen = random.randrange(len(fields))
    length = random.choice((0, 1, 2, 5, 6, 7, 256, 257, 262, 65535))
    fields[chosen] = fields[chosen][:1] + length.to_bytes(2, "big") + fields[chosen][Limit.HEADER_BYTES:]
    return b"".join(fields)


def edge_value(random: Random, network: model.Settings) -> None:
    """One value stands at the end of its range, or just beyond; of the three times one or several."""
    beyond = random.choice((0, 1, 1))
    place = random.choice((0, 1, 2, 2, 2, 3, 4))
    if place == 0:
        network.controllers[-1] = Limit.CONTROLLER_ID + beyond
    elif place == 1:
        network.transceiver = Limit.TRANSCEIVER_ID + beyond
    elif place == 2:
        for name in random.sample(("short_delay", "long_delay", "ensure_time"), random.choice((1, 1, 2, 3))):
            setattr(network, name, 1 - beyond)
    elif place == 3:
        network.threshold = Limit.THRESHOLD + beyond
    else:
        network.partial_networking = 1 + beyond


def broken_sheet(random: Random, sheet: bytes) -> bytes:
    """A sheet in good order of fields that breaks a rule on what they say, or nearly so."""
    networks = model.read_sheet(sheet).networks
    chosen, other = random.choice(networks), random.choice(networks)
    way = random.randrange(12)
    if way == 0:
        networks.append(deepcopy(chosen))
    elif way == 1:
        chosen.controllers.append(random.choice(other.controllers))
    elif way == 2:
        chosen.transceiver = other.transceiver
    elif way == 3:
        chosen.controllers = random.sample(range(Limit.CONTROLLER_ID + 1), 5)
    elif way == 4:
        networks = [model.Settings(number, [number], None, 1, 1, 1) for number in range(random.randint(8, 10))]
    elif way == 5:
        chosen.transceiver, chosen.partial_networking = None, 1
    elif way == 6:
        return model.write_sheet(networks) + field(Tag.RELATION, random.choice((0, 1, 1, 2, 255)))
    else:
        edge_value(random, chosen)
    return model.write_sheet(networks)


DAMAGES_OF_FIELDS = (swap_fields, double_field, drop_field, foreign_field, wrong_length)
DAMAGES_OF_BYTES = (flip, flip, cut, drop, insert)


def damage(random: Random, data: bytes) -> bytes:
    """A row of whole fields with one damage or two: first perhaps among its fields, then among its bytes."""
    if random.random() < 0.5:
        data = random.choice(DAMAGES_OF_FIELDS)(random, data)
        if random.random() < 0.7:
            return data
    return random.choice(DAMAGES_OF_BYTES)(random, data) if data else data


# ---------------------------------------------------------------------------
# Inputs
# ---------------------------------------------------------------------------


def long_trace(random: Random) -> bytes:
    """A good sheet and 50 to 400 good events."""
    return Driver(random).run(random.randint(50, 400))


def short_trace(random: Random) -> bytes:
    """A good sheet and up to 50 good events."""
    return Driver(random).run(random.randint(0, 50))


def damaged_sheet(random: Random) -> bytes:
    """A damaged sheet; the events after it run where the damage did not matter."""
    driver = Driver(random)
    driver.run(random.randint(0, 60))
    sheet, events = driver.trace.fields[0], driver.trace.fields[1:]
    damaged = random.choice((damage, broken_sheet))(random, sheet)
    return damaged + b"".join(events)


def damaged_events(random: Random) -> bytes:
    """A good sheet and good events, and damage from one of them on."""
    driver = Driver(random)
    driver.run(random.randint(20, 200))
    fields = driver.trace.fields
    place = random.randrange(1, len(fields))
    return b"".join(fields[:place]) + damage(random, b"".join(fields[place:]))


def noise(random: Random) -> bytes:
    """Bytes, or whole fields of low tags, without any sense; behind a good sheet or alone."""
    start = model.write_sheet(random_networks(random)) if random.random() < 0.5 else b""
    if random.random() < 0.5:
        return start + bytes(random.randrange(256) for _ in range(random.randrange(200)))
    fields = []
    for _ in range(random.randrange(40)):
        value = [random.randrange(40) for _ in range(random.choice((0, 1, 1, 1, 2, 3, 6)))]
        fields.append(field(random.randrange(0x1B), *value))
    return start + b"".join(fields)


def longest_trace(random: Random) -> bytes:
    """A good trace, repeated in its events to about the greatest length that is taken."""
    driver = Driver(random)
    driver.run(200)
    sheet, events = driver.trace.fields[0], b"".join(driver.trace.fields[1:])
    length = Limit.PROGRAM_INPUT_BYTES + random.randint(-3, 3)
    return (sheet + events * (length // len(events) + 1))[:length]


# Of a thousand inputs so many are made in each way.
WAYS: Dict[Callable[[Random], bytes], int] = {
    long_trace: 667,
    short_trace: 80,
    damaged_sheet: 100,
    damaged_events: 100,
    noise: 50,
    longest_trace: 3,
}


def random_input(random: Random) -> RandomInput:
    """One input, made in one of the ways."""
    way = random.choices(tuple(WAYS), tuple(WAYS.values()))[0]
    return RandomInput(way.__name__.replace("_", " "), way(random))
