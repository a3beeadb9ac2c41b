"""Random structure files for random-structures, as the tables of their texts and as texts.

A file is built from flows: a signal from the system or a set to another, over a gate of each block on its way and a channel in
each of these. So it is well formed, unless it is changed at random afterwards."""
import copy

MOST_GATES = 8
MOST_CHANNELS = 64
DEEPEST = {1: 1, 2: 4}


class Agent:
    """The system, a block or a set, with its table. The scope is the agent around it."""

    def __init__(self, name, scope, table):
        self.name, self.scope, self.table = name, scope, table
        self.blocks = []

    def around(self):
        """The blocks around it, the outermost first."""
        return [] if self.scope is None or self.scope.scope is None else [*self.scope.around(), self.scope]


class Files:
    """A maker of files of one system."""

    def __init__(self, dice, version):
        self.dice, self.version, self.count = dice, version, 0
        self.top = Agent("env", None, {"version": version})
        self.sets = []

    def new(self, letter):
        self.count += 1
        name = f"{letter}{self.count}"
        return name.ljust(32, "x") if self.dice.random() < 0.02 else name

    def block(self, scope):
        table = {"name": self.new("B")}
        block = Agent(table["name"], scope, table)
        scope.blocks.append(block)
        scope.table.setdefault("block", []).append(table)
        return block

    def place_set(self):
        """A set without a name, in a block that is there or in new ones."""
        scope = self.top
        for depth in range(self.dice.randint(1, DEEPEST[self.version])):
            if scope.blocks and self.dice.random() < 0.6:
                scope = self.dice.choice(scope.blocks)
            elif self.top is scope and len(self.top.blocks) == 16:
                scope = self.dice.choice(scope.blocks)
            else:
                scope = self.block(scope)
        table = {}
        if self.dice.random() < 0.3:
            table.update(initial=1, maximum=self.dice.choice([1, 2, 1024]))
        scope.table.setdefault("set", []).append(table)
        self.sets.append(Agent(None, scope, table))

    def name_sets(self, names):
        """Gives the sets their names in the order in which they are numbered."""
        left = list(names)

        def walk(scope):
            for table in scope.table.get("set", []):
                agent = next(it for it in self.sets if it.table is table)
                agent.name = table["name"] = left.pop(0)
            for block in scope.blocks:
                walk(block)

        walk(self.top)
        self.sets.sort(key=lambda it: names.index(it.name))

    def gate(self, agent, way, signal):
        """A gate of the agent that lets the signal through; None where there is no room."""
        gates = agent.table.setdefault("gate", [])
        if len(gates) < MOST_GATES and (not gates or self.dice.random() < 0.4):
            gates.append({"name": f"g{len(gates)}"})
            gate = gates[-1]
        else:
            gate = self.dice.choice(gates)
        if signal not in gate.setdefault(way, []):
            gate[way].append(signal)
        return gate["name"]

    def channel(self, scope, start, finish, signal):
        """A channel in the scope that carries the signal from one end to the other."""
        there = scope.table.setdefault("channel", [])
        ends = [start, finish]
        for it in there:
            if sorted(it["ends"]) == sorted(ends) and self.dice.random() < 0.7:
                way = "forth" if it["ends"] == ends else "back"
                if signal not in it.setdefault(way, []):
                    it[way].append(signal)
                return
        way = "forth" if self.dice.random() < 0.5 else "back"
        table = {"name": self.new("c"), "ends": ends if way == "forth" else ends[::-1], way: [signal]}
        if self.dice.random() < 0.3:
            table["nodelay"] = self.dice.random() < 0.7
        there.append(table)

    def flow(self, signal, source, target):
        """Carries the signal from one agent to another, which is not the same."""
        up, down = source.around(), target.around()
        shared = 0
        while shared < min(len(up), len(down)) and up[shared] is down[shared]:
            shared += 1
        out = [source, *up[shared:][::-1]] if source is not self.top else []
        into = [*down[shared:], target] if target is not self.top else []
        steps = [(it, "outward") for it in out] + [(it, "inward") for it in into]
        if source is self.top:
            steps = [(source, "inward"), *steps]
        if target is self.top:
            steps = [*steps, (target, "outward")]
        gates = [self.gate(agent, way, signal) for agent, way in steps]
        for (start, _), (finish, _), first, last in zip(steps, steps[1:], gates, gates[1:]):
            # the agent in which both meet is the outer one of them, or the one around both
            scope = start if finish.scope is start else finish if start.scope is finish else start.scope
            texts = [f"{'env' if it is scope else it.name}.{gate}" for it, gate in ((start, first), (finish, last))]
            self.channel(scope, *texts, signal)

    def channels(self):
        def all_in(table):
            return [*table.get("channel", []), *(it for block in table.get("block", []) for it in all_in(block))]

        return all_in(self.top.table)


def echo(dice, version):
    """Echo: lines go to the one set, and its answers leave."""
    maker = Files(dice, version)
    maker.place_set()
    maker.name_sets(["E"])
    flows = [("ping", maker.top, maker.sets[0]), ("pong", maker.sets[0], maker.top)]
    return grown(maker, "Echo", ["ping", "pong"], flows, dice.randint(0, 6))


def relay(dice, version):
    """Relay: lines go to two sets, from these to a third, and from there they leave."""
    maker = Files(dice, version)
    for _ in range(3):
        maker.place_set()
    maker.name_sets(["A", "C", "B"])
    a, c, b = maker.sets
    flows = [("put", maker.top, a), ("put", maker.top, c), ("num", a, b), ("num", c, b), ("out", b, maker.top)]
    return grown(maker, "Relay", ["put", "num", "out"], flows, dice.randint(0, 5))


def other(dice, version):
    """A system of some sets and signals, with flows of any kind."""
    maker = Files(dice, version)
    count = dice.choice([1, 2, 3, 5, 8, 12, 30])
    for _ in range(count):
        maker.place_set()
    maker.name_sets([f"S{it}" for it in range(count)])
    signals = [f"s{it}" for it in range(dice.choice([1, 2, 4, 9]))]
    flows = []
    for _ in range(dice.choice([0, 1, 3, 8, 12])):
        source, target = dice.choice([maker.top, *maker.sets]), dice.choice([maker.top, *maker.sets])
        if source is not target:
            flows.append((dice.choice(signals), source, target))
    return grown(maker, "Other", signals, flows, 0)


def grown(maker, system, signals, flows, more):
    """The file with these flows, and so many more of the same; None where it has too many channels."""
    for flow in [*flows, *(maker.dice.choice(flows) for _ in range(more))]:
        maker.flow(*flow)
    if len(maker.channels()) > MOST_CHANNELS:
        return None
    table = maker.top.table
    table["system"] = system
    table["signal"] = [{"name": it} if system == "Other" and maker.dice.random() < 0.3 else {"name": it, "sorts": ["Integer"]} for it in signals]
    if maker.dice.random() < 0.2:
        table["budget"] = maker.dice.choice([100_000, 1_000_000])
    return table


def crowd(dice, version):
    """A file with about as many blocks, sets or channels as a file may have."""
    most = dice.choice([15, 16, 17, 60, 63, 64, 65, 70]) if version == 2 else dice.choice([15, 16, 17, 18])
    top = {"version": version, "system": "Crowd", "block": []}
    places, count = [(top, 0)], 0
    while count < most:
        table, depth = dice.choice(places)
        block = {"name": f"B{count}"}
        table.setdefault("block", []).append(block)
        if depth + 1 < DEEPEST[version] + (dice.random() < 0.005):
            places.append((block, depth + 1))
        if version == 1 or dice.random() < 0.5:
            block["set"] = [{"name": f"S{count}x{it}"} for it in range(dice.choice([0, 1, 1, 1, 2]))]
        count += 1

    def fill(block):
        if not block.get("set") and not block.get("block"):
            block["set"] = [{"name": f"T{block['name']}"}]
        for it in block.get("block", []):
            fill(it)

    for block in top["block"]:
        fill(block)
    return top


def layered(widths, signals):
    """Two chains of four blocks, one in the other, with a set in each innermost block. From the first set to the second lead so
    many channels in each of the nine layers between. The first signal takes the first channel of each layer. All others take
    every channel but those of the first layer, so that nobody brings them there."""
    first, others = signals[0], signals[1:]

    def chain(letter, way):
        """The blocks of one chain, the outermost first; the last one has the set."""
        gate = {"name": "g", way: [*signals]}
        blocks = [{"name": f"{letter}{depth}", "gate": [gate]} for depth in (1, 2, 3, 4)]
        for outer, inner in zip(blocks, blocks[1:]):
            outer["block"] = [inner]
        blocks[3]["set"] = [{"name": f"{letter}5", "gate": [{"name": "g", way: [first] if way == "outward" else [*signals]}]}]
        return blocks

    out, into = chain("P", "outward"), chain("Q", "inward")
    top = {"version": 2, "system": "Layers", "signal": [{"name": it} for it in signals], "block": [out[0], into[0]], "channel": []}
    layers = [*((block, "P{}.g", "env.g", depth) for depth, block in zip((5, 4, 3, 2), out[::-1])), (top, "P{}.g", "Q1.g", 1)]
    layers += [(block, "env.g", "Q{}.g", depth) for depth, block in zip((2, 3, 4, 5), into)]
    for number, (width, (table, start, finish, depth)) in enumerate(zip(widths, layers)):
        table["channel"] = [
            {"name": f"c{number}_{it}", "ends": [start.format(depth), finish.format(depth)], "forth": [first] * (it == 0) + others * (number > 0)}
            for it in range(width)
        ]
    return top


def all_routes(widths):
    """The same with one signal, which takes every channel: the routes are as many as the product of the widths."""
    top = layered(widths, ["s"])
    for table, _ in tables_in(top):
        if "ends" in table:
            table["forth"] = ["s"]
    return top


def limits():
    """Files at the limits: as many routes as a structure may have, each of nine hops; more of them; and two with which a search of
    routes that began at every gate would not end."""
    signals = [f"s{it}" for it in range(64)]
    return [
        all_routes([4, 4, 4, 4, 4, 4, 1, 1, 1]),
        all_routes([4, 4, 4, 4, 4, 4, 1, 1, 2]),
        layered([1, 1, *[7] * 7], signals),
        layered([1, *[8] * 7, 7], signals),
    ]


# Changes at random.
WRONG = [3, "three", True, 1.5, [], [3], ["x"], {}, [{}], -1, 0, 2, 1_000_001, "", "env", "a.b", "9", "a b", "x" * 33, ["a.b"], ["a", "b"], [{"name": "n"}]]


def tables_in(table, path=()):
    """Each table of a file with the keys that lead to it."""
    yield table, path
    for key, value in list(table.items()):
        if isinstance(value, list):
            for it in value:
                if isinstance(it, dict):
                    yield from tables_in(it, (*path, key))


def texts_in(root, key):
    return [it[key] for it, _ in tables_in(root) if isinstance(it.get(key), str)]


def all_signals(root):
    return [it["name"] for it in root.get("signal", []) if isinstance(it, dict) and isinstance(it.get("name"), str)] if isinstance(root.get("signal"), list) else []


def changed(root, dice):
    """The file with some places changed."""
    root = copy.deepcopy(root)
    for _ in range(dice.choice([1, 1, 1, 2, 3])):
        table, path = dice.choice(list(tables_in(root)))
        dice.choice(CHANGES)(root, table, path, dice)
    return root


def drop_key(_root, table, _path, dice):
    if table:
        del table[dice.choice(sorted(table))]


def wrong_value(_root, table, _path, dice):
    if table:
        table[dice.choice(sorted(table))] = copy.deepcopy(dice.choice(WRONG))


def another_key(_root, table, _path, dice):
    key = dice.choice(["colour", "block", "set", "gate", "channel", "sorts", "initial", "maximum", "nodelay", "budget", "signal"])
    table.setdefault(key, copy.deepcopy(dice.choice(WRONG)))


def another_name(root, table, _path, dice):
    table["name"] = dice.choice(texts_in(root, "name") or ["n"])


def drop_element(_root, table, _path, dice):
    lists = [key for key in sorted(table) if isinstance(table[key], list) and table[key]]
    if lists:
        listed = table[dice.choice(lists)]
        del listed[dice.randrange(len(listed))]


def double_element(_root, table, _path, dice):
    lists = [key for key in sorted(table) if isinstance(table[key], list) and table[key]]
    if lists:
        listed = table[dice.choice(lists)]
        listed.insert(dice.randrange(len(listed) + 1), copy.deepcopy(dice.choice(listed)))


def another_signal(root, table, _path, dice):
    lists = [key for key in ("inward", "outward", "forth", "back") if isinstance(table.get(key), list)]
    if lists:
        table[dice.choice(lists)].append(dice.choice([*all_signals(root), "unknown"]))


def another_end(root, table, _path, dice):
    if isinstance(table.get("ends"), list) and table["ends"]:
        agent = dice.choice(["env", *texts_in(root, "name")])
        table["ends"][dice.randrange(len(table["ends"]))] = f"{agent}.g{dice.randrange(3)}"


def other_version(root, _table, _path, dice):
    root["version"] = dice.choice([1, 2, 3, True, "2"])


def more_initial(_root, table, path, dice):
    if path[-1:] == ("set",):
        table.update(initial=dice.choice([0, 2, 1024, 1025]), maximum=dice.choice([1, 2, 1024]))


def block_in(_root, table, path, dice):
    if path[-1:] == ("block",) or not path:
        blocks = table.get("block")
        if isinstance(blocks, list):
            blocks.append(dice.choice([{}, {"name": "New"}, {"name": "New", "set": [{"name": "NewSet"}]}]))
        else:
            table["block"] = dice.choice([[], [{}], [{"name": "New", "set": [{"name": "NewSet"}]}]])


def moved_block(root, table, path, dice):
    """A block of the table goes into one of its other blocks, or one in it comes out."""
    blocks = table.get("block")
    if isinstance(blocks, list) and len(blocks) > 1 and all(isinstance(it, dict) for it in blocks):
        moved = blocks.pop(dice.randrange(len(blocks)))
        goal = dice.choice(blocks)
        if isinstance(goal.setdefault("block", []), list):
            goal["block"].append(moved)


CHANGES = [
    drop_key, wrong_value, another_key, another_name, drop_element, double_element, another_signal, another_end, another_end,
    other_version, more_initial, block_in, block_in, moved_block,
]


# Texts.
def inline(value):
    if isinstance(value, bool):
        return "true" if value else "false"
    if isinstance(value, str):
        return f'"{value}"'
    if isinstance(value, list):
        return "[" + ", ".join(inline(it) for it in value) + "]"
    if isinstance(value, dict):
        return "{ " + ", ".join(f"{key} = {inline(it)}" for key, it in value.items()) + " }" if value else "{}"
    return repr(value)


def text_of(table, dice, path=()):
    """The text of a file: a list of tables in brackets, or part by part behind all other keys."""
    lines, parts = [], []
    for key, value in table.items():
        is_list = isinstance(value, list) and value and all(isinstance(it, dict) for it in value)
        if is_list and dice.random() < 0.7:
            parts.append((key, value))
        else:
            lines.append(f"{key} = {inline(value)}\n")
    for key, value in parts:
        for it in value:
            lines.append(f"\n[[{'.'.join([*path, key])}]]\n")
            lines.append(text_of(it, dice, (*path, key)))
    return "".join(lines)
