"""A plain reading of the rules of docs/FORMATS.md, which random-structures compares the programs with: what `check` and `routes`
answer for a structure file, and what a run of Echo or Relay comes to. A file is given as the tables that its text says."""

MOST = {"signal": 64, "gate": 8, "set": 64, "channel": 64, "sorts": 4}
MOST_BLOCKS = {1: 16, 2: 64}
MOST_DEPTH = 4
MOST_INSTANCES = 1024
MOST_BUDGET = 1_000_000
MOST_ROUTES = 4096
SORTS = ("Integer", "Boolean", "Pid")
LETTERS = "ABCDEFGHIJKLMNOPQRSTUVWXYZabcdefghijklmnopqrstuvwxyz"
KEYS = {
    "system": ["version", "system", "budget", "signal", "gate", "block", "channel"],
    "signal": ["name", "sorts"],
    "gate": ["name", "inward", "outward"],
    "block": ["name", "gate", "set", "block", "channel"],
    "set": ["name", "initial", "maximum", "gate"],
    "channel": ["name", "ends", "forth", "back", "nodelay"],
}
# The agents around all blocks.
SYSTEM = ("system", 0)


class Refused(Exception):
    """The line that the first fault is told by."""


def is_name(text):
    rest = LETTERS + "0123456789_"
    return 1 <= len(text) <= 32 and text[0] in LETTERS and all(it in rest for it in text) and text != "env"


def integer(value):
    return isinstance(value, int) and not isinstance(value, bool)


def order(path):
    """Paths stand in the order of their channels, forth before back."""
    return path[0], path[1] == "back"


class Gate:
    """A gate of an agent. The owner is a kind of agent with its number."""

    def __init__(self, owner, name, inward, outward):
        self.owner, self.name, self.inward, self.outward = owner, name, inward, outward

    def sides(self):
        return {"system": ["inside"], "block": ["outside", "inside"], "set": ["outside"]}[self.owner[0]]


class Channel:
    """A channel. An end is the number of a gate with a side of it."""

    def __init__(self, name, ends, texts, forth, back, nodelay):
        self.name, self.ends, self.texts, self.nodelay = name, ends, texts, nodelay
        self.signals = {"forth": forth, "back": back}

    def start(self, way):
        return self.ends[way == "back"]

    def finish(self, way):
        return self.ends[way == "forth"]


class Structure:
    """The structure that a file tells of; making one raises the first fault of the file."""

    def __init__(self, root):
        self.names = {"signal": [], "agent": [], "channel": []}
        self.signals, self.blocks, self.sets, self.gates, self.channels = [], [], [], [], []
        self.gates_of = {}
        self.counts = {"block": 0, "set": 0, "channel": 0}
        self.channels_in = {}
        self.read(root)

    # What stands at a key. A place is the kind of table with its three numbers.
    def fault(self, fault, place, key):
        raise Refused(f"{fault} {place[0]} {place[1]} {place[2]} {place[3]} {key}")

    def value(self, table, place, key, default, is_right):
        if key not in table:
            if default is None:
                self.fault("F2 MissingKey", place, key)
            return default
        if not is_right(table[key]):
            self.fault("F3 WrongType", place, key)
        return table[key]

    def whole(self, table, place, key, default, least, most):
        value = self.value(table, place, key, default, integer)
        if not least <= value <= most:
            self.fault("F9 OutOfRange", place, key)
        return value

    def name(self, table, place, taken, key="name"):
        text = self.value(table, place, key, None, lambda it: isinstance(it, str))
        if not is_name(text):
            self.fault("F5 BadName", place, key)
        if text in taken:
            self.fault("F6 Duplicate", place, key)
        taken.append(text)
        return text

    def list_of(self, kind, table, place, key, default=()):
        return self.value(table, place, key, default, lambda it: isinstance(it, list) and all(isinstance(x, kind) for x in it))

    def short(self, listed, place, key):
        """The list, which is counted with those of its kind before it, if there are such."""
        count = len(listed)
        if key in self.counts:
            self.counts[key] = count = self.counts[key] + count
        if count > {**MOST, "block": MOST_BLOCKS[self.version]}[key]:
            self.fault("F8 TooMany", place, key)
        return listed

    def signals_at(self, table, place, key):
        texts = self.list_of(str, table, place, key)
        for at, text in enumerate(texts):
            if text not in self.names["signal"]:
                self.fault("F7 UnknownName", place, key)
            if text in texts[:at]:
                self.fault("F6 Duplicate", place, key)
        return list(texts)

    def done(self, table, place, kind):
        known = [it for it in KEYS[kind] if kind != "block" or it != "block" or self.version == 2]
        if any(it not in known for it in table):
            self.fault("F4 UnknownKey", place, "other")

    # The walk over the tables.
    def read(self, root):
        top = ("system", 0, 0, 0)
        self.version = self.whole(root, top, "version", None, 1, 2)
        self.system = self.name(root, top, [], "system")
        self.whole(root, top, "budget", 100_000, 1, MOST_BUDGET)
        for at, table in enumerate(self.short(self.list_of(dict, root, top, "signal"), top, "signal")):
            self.read_signal(table, ("signal", 0, 0, at))
        self.read_gates(root, top, SYSTEM, lambda at: ("gate", 0, 0, at))
        blocks = self.short(self.list_of(dict, root, top, "block", None), top, "block")
        if not blocks:
            self.fault("F9 OutOfRange", top, "block")
        for table in blocks:
            self.read_block(table, SYSTEM, 1)
        own = self.read_channels(root, top, SYSTEM, lambda at: ("channel", 0, 0, at))
        self.done(root, top, "system")
        self.channels = own + [it for block in range(len(self.blocks)) for it in self.channels_in[block]]

    def read_signal(self, table, place):
        name = self.name(table, place, self.names["signal"])
        sorts = self.short(self.list_of(str, table, place, "sorts"), place, "sorts")
        if any(it not in SORTS for it in sorts):
            self.fault("F7 UnknownName", place, "sorts")
        self.done(table, place, "signal")
        self.signals.append((name, list(sorts)))

    def read_gates(self, table, place, owner, place_of):
        taken = []
        self.gates_of[owner] = {}
        for at, gate in enumerate(self.short(self.list_of(dict, table, place, "gate"), place, "gate")):
            at = place_of(at)
            name = self.name(gate, at, taken)
            inward, outward = self.signals_at(gate, at, "inward"), self.signals_at(gate, at, "outward")
            self.done(gate, at, "gate")
            self.gates_of[owner][name] = len(self.gates)
            self.gates.append(Gate(owner, name, inward, outward))

    def read_block(self, table, around, depth):
        number, block = len(self.blocks), ("block", len(self.blocks))
        place = ("block", number, 0, 0)
        self.blocks.append([None, around])
        self.blocks[number][0] = self.name(table, place, self.names["agent"])
        self.read_gates(table, place, block, lambda at: ("block-gate", number, 0, at))
        sets = self.short(self.list_of(dict, table, place, "set", None if self.version == 1 else ()), place, "set")
        if self.version == 1 and not sets:
            self.fault("F9 OutOfRange", place, "set")
        for at, it in enumerate(sets):
            self.read_set(it, number, at)
        if self.version == 2:
            self.read_inner_blocks(table, place, block, depth, bool(sets))
        self.channels_in[number] = self.read_channels(table, place, block, lambda at: ("block-channel", number, 0, at))
        self.done(table, place, "block")

    def read_inner_blocks(self, table, place, block, depth, has_sets):
        blocks = self.list_of(dict, table, place, "block")
        if blocks and depth == MOST_DEPTH:
            self.fault("F8 TooMany", place, "block")
        self.short(blocks, place, "block")
        if not blocks and not has_sets:
            self.fault("F9 OutOfRange", place, "block")
        for it in blocks:
            self.read_block(it, block, depth + 1)

    def read_set(self, table, block, at):
        place = ("set", block, at, 0)
        name = self.name(table, place, self.names["agent"])
        initial = self.whole(table, place, "initial", 1, 0, MOST_INSTANCES)
        maximum = self.whole(table, place, "maximum", MOST_INSTANCES, 1, MOST_INSTANCES)
        number = len(self.sets)
        self.sets.append((name, block, initial, maximum))
        self.read_gates(table, place, ("set", number), lambda gate: ("set-gate", block, at, gate))
        self.done(table, place, "set")

    def read_channels(self, table, place, scope, place_of):
        listed = self.short(self.list_of(dict, table, place, "channel"), place, "channel")
        return [self.read_channel(it, place_of(at), scope) for at, it in enumerate(listed)]

    def read_channel(self, table, place, scope):
        name = self.name(table, place, self.names["channel"])
        texts = self.list_of(str, table, place, "ends", None)
        if len(texts) != 2:
            self.fault("F9 OutOfRange", place, "ends")
        if any(text.count(".") != 1 for text in texts):
            self.fault("F5 BadName", place, "ends")
        ends = [self.end(scope, *text.split(".")) for text in texts]
        if None in ends:
            self.fault("F7 UnknownName", place, "ends")
        forth, back = self.signals_at(table, place, "forth"), self.signals_at(table, place, "back")
        nodelay = self.value(table, place, "nodelay", False, lambda it: isinstance(it, bool))
        self.done(table, place, "channel")
        return Channel(name, ends, texts, forth, back, nodelay)

    def end(self, scope, agent, gate):
        """The end that the text of a channel's end means in the scope, or None."""
        agents = {"env": (scope, "inside")}
        for number, (name, around) in enumerate(self.blocks):
            if around == scope:
                agents[name] = (("block", number), "outside")
        for number, (name, block, _, _) in enumerate(self.sets):
            if scope == ("block", block):
                agents[name] = (("set", number), "outside")
        owner, side = agents.get(agent, (None, None))
        found = self.gates_of.get(owner, {}).get(gate)
        return None if found is None else (found, side)

    # Whether the structure is well formed.
    def agent(self, gate):
        kind, number = self.gates[gate].owner
        return {"system": lambda: "env", "block": lambda: self.blocks[number][0], "set": lambda: self.sets[number][0]}[kind]()

    def gate_text(self, gate):
        return f"{self.agent(gate)}.{self.gates[gate].name}"

    def judge(self):
        """Raises the first fault of the structure."""
        for it in self.channels:
            if it.ends[0][0] == it.ends[1][0] or (it.ends[0][1] == "inside" and it.ends[1][1] == "inside"):
                raise Refused(f"C1 BadEnds channel {it.name}")
        for it in self.channels:
            if not it.signals["forth"] and not it.signals["back"]:
                raise Refused(f"C2 EmptyChannel channel {it.name}")
        for it in self.channels:
            self.judge_gates(it)
        joined = {end for it in self.channels for end in it.ends}
        for number, gate in enumerate(self.gates):
            for side in gate.sides():
                if (number, side) not in joined:
                    raise Refused(f"C4 Unjoined gate {self.gate_text(number)} {side}")
        starts = self.starts()
        for it in self.channels:
            for way, signal in self.paths_of(it):
                if self.goes_on(it.finish(way)) and not starts.get((self.behind(it.finish(way)), signal)):
                    raise Refused(f"C5 LeadsNowhere channel {it.name} {way} {signal}")
        for name, _, initial, maximum in self.sets:
            if initial > maximum:
                raise Refused(f"C6 InitialOverMax set {name}")

    def judge_gates(self, channel):
        for way, signal in self.paths_of(channel):
            for place, (number, side) in ((0, channel.start(way)), (1, channel.finish(way))):
                gate = self.gates[number]
                # what starts outside, or ends inside, has come out of the gate's owner
                listed = gate.outward if (place == 0) == (side == "outside") else gate.inward
                if signal not in listed:
                    at = channel.texts[channel.ends.index((number, side))]
                    raise Refused(f"C3 NotInGate channel {channel.name} {way} {signal} {at}")

    def paths_of(self, channel):
        return [(way, signal) for way in ("forth", "back") for signal in channel.signals[way]]

    def goes_on(self, end):
        return self.gates[end[0]].owner[0] == "block"

    def behind(self, end):
        return end[0], "inside" if end[1] == "outside" else "outside"

    def starts(self):
        """For each end and signal the paths that carry the signal from there, in order."""
        found = {}
        for number, it in enumerate(self.channels):
            for way, signal in self.paths_of(it):
                found.setdefault((it.start(way), signal), []).append((number, way))
        return found

    # The routes, each as its signal and its paths.
    def routes(self):
        """All routes in order; raises the fault of too many."""
        starts, found = self.starts(), []
        for signal, _ in self.signals:
            firsts = [path for (end, it), paths in starts.items() if it == signal and not self.goes_on(end) for path in paths]
            for first in sorted(firsts, key=order):
                self.walk_on(starts, signal, [first], found)
        return found

    def walk_on(self, starts, signal, walk, found):
        number, way = walk[-1]
        end = self.channels[number].finish(way)
        if not self.goes_on(end):
            if len(found) == MOST_ROUTES:
                raise Refused("P1 TooMany")
            found.append((signal, walk))
            return
        for path in sorted(starts.get((self.behind(end), signal), []), key=order):
            self.walk_on(starts, signal, [*walk, path], found)

    def gates_at_ends(self, walk):
        """The gates where a route starts and ends."""
        (first, way), (last, last_way) = walk[0], walk[-1]
        return self.channels[first].start(way)[0], self.channels[last].finish(last_way)[0]

    def route_text(self, number, signal, walk):
        start, finish = self.gates_at_ends(walk)
        hops = [self.channels[it].name + ("+" if way == "forth" else "-") for it, way in walk]
        return " ".join([str(number), signal, self.gate_text(start), *hops, self.gate_text(finish)])


def answers(root):
    """What `check` and `routes` answer: for each its lines, and the line of a fault or nothing."""
    try:
        structure = Structure(root)
        structure.judge()
    except Refused as fault:
        return None, ([], str(fault)), ([], str(fault))
    counts = [len(it) for it in (structure.blocks, structure.sets, structure.channels, structure.signals)]
    checked = ["ok {} blocks {} sets {} channels {} signals {}".format(structure.system, *counts)]
    try:
        routes = structure.routes()
    except Refused as fault:
        return structure, (checked, ""), ([], str(fault))
    return structure, (checked, ""), ([structure.route_text(at, *it) for at, it in enumerate(routes)], "")


# Of a built-in system each of whose agents answers a signal by the next one: the signals in this order. A line brings the first,
# and the environment receives the last.
ANSWERED = {"Echo": ["ping", "pong"], "Relay": ["put", "num", "out"]}


def run_of(structure, routes, lines):
    """What a run of Echo or Relay comes to on the lines, each a gate with a number. Each agent has a route for its answer. Told
    are what is received, a gate's name left out, and the two lines of the ledger."""
    signals = ANSWERED[structure.system]
    starts = {structure.gates[structure.gates_at_ends(walk)[0]].name for signal, walk in routes if signal == signals[0]}
    brought = [number for gate, number in lines if gate in starts]
    count, fired = len(brought), len(brought) * (len(signals) - 1)
    entered, lost = count + fired, len(lines) - count
    ledger = [
        f"ledger output {len(lines) + fired} noroute {lost} entered {entered} noinstance 0 gone 0 left 0",
        f"ledger entered {entered} fired {fired} implicit 0 stopped 0 waiting 0 environment {count}",
    ]
    return sorted(f"{signals[-1]} {number}" for number in brought), ledger
