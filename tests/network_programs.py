"""Programs made at random as a ladder diagram in PLCopen XML has them, what they do, and what of them is refused.

The elements act one after the other, each by the power that has a way to it from the left, which is searched for from the right. A jump that has
power is followed to its label. A contact or a coil with an edge has a trigger with a memory of its own.

In some programs there are blocks that aren't known: what leads to them means nothing, and what their outputs give may be anything.
"""
from collections import Counter
from dataclasses import dataclass, field

from statements import KINDS, Run

ACTING = ("coil", "block", "outVariable", "return", "jump")
NAMES = ("Start", "stop", "a", "b2", "_x", "Motor", "MotorContactor", "MotorContactor2", "LevelTooHighInTankNumber3", "Horn", "h1", "Q", "S", "r", "Lamp_9",
         "DoorClosed", "x", "y", "CoolantPump", "CoolantPumpReady", "Tank", "Valve_A", "EmergencyStopOfTheConveyorBelt", "Auto", "Hand", "Reset", "z80", "i0")
DURATIONS = {0: "T#0s", 1: "T#1ms", 5: "T#5ms", 700: "T#700ms", 1000: "T#1s", 2000: "t#2s", 5000: "T#5s", 60_000: "T#1m"}
OTHERS = ("INT", "REAL", "TIME", "string", "derived")
TRIGGERS = ("R_TRIG", "F_TRIG")
PINS = KINDS | dict.fromkeys(TRIGGERS, ("CLK", None, None))
EDGES = ("rising", "falling")
FUNCTIONS = ("GT", "ADD", "MOVE")
RAMPS = ("Ramp", "RampOfTheConveyor")
NUMBERS = ("5", "100", "T#2s", "speed")
NOT_DECLARED = ("Nowhere", "Drive.Ready", "MW5", "")
CLASHING = ("Ramp_DONE", "ramp_done_1", "GT5", "ADD7_ENO", "MOVE9")


@dataclass
class Variable:
    """A variable or a block: its kind is BOOL, that of a block or a trigger, or another one."""

    name: str
    kind: str
    listed: str
    address: str = ""
    initial: bool = False


@dataclass(eq=False)
class Element:
    """An element of a diagram, by the name that it has in XML; its word is a name, the output of a block or a literal.

    A block that isn't known has its type as what is foreign, and connections and outputs by their names. A variable that only such blocks read or write
    is foreign too. An `output` is no element of the document: it is that of a block, and its word is the name of the output."""

    sort: str
    word: str = ""
    left: list = field(default_factory=list)
    second: list = field(default_factory=list)
    preset: "Element" = None
    negated: bool = False
    storage: str = "none"
    edge: str = ""
    foreign: str = ""
    pins: dict = field(default_factory=dict)
    outputs: list = field(default_factory=list)
    block: "Element" = None
    number: int = 0
    execution: int = 0
    down: int = 0
    across: int = 0


class Program:
    """A program made at random: what it declares, and its elements in the order in which they are to act."""

    def __init__(self, chance, small):
        self.random, self.small = chance, small
        self.integers, self.elements, self.nodes = {}, [], []
        self.name = chance.choice(["main", "PLC_PRG", "program0", "Motor"])
        self.is_open = self.is_so(0.2)
        self.declare()
        self.uncalled = chance.sample(sorted(self.kinds), len(self.kinds))
        self.ramps = chance.sample(RAMPS, len(RAMPS)) if self.is_open else []
        self.rails = [self.add("leftPowerRail")]
        self.open, self.jumps = [], 0
        self.has_one_rail = chance.random() < 0.5
        for number in range(chance.randint(1, 2 if small else chance.choice([4, 8, 8, 13]))):
            if number and not self.has_one_rail:
                self.rails.append(self.add("leftPowerRail"))
            self.rung()
            self.jump()
        while self.open:
            self.label(self.open.pop())
        if self.is_so(0.01):
            self.ring()

    # what it declares

    def declare(self):
        """Declares variables and blocks, list by list."""
        chance, names = self.random, self.random.sample(NAMES, 5 if self.small else 14)
        lists = ["localVars"] + chance.sample(["inputVars", "outputVars", "localVars", "externalVars", "tempVars"], chance.choice([0, 1, 2, 3]))
        kinds = ["BOOL"] * len(names) + chance.sample([*KINDS, *KINDS], 1 if self.small else chance.randint(1, 7))
        kinds += chance.choices(OTHERS, k=chance.choice([0, 0, 1, 2]))
        names += [f"{kind}{number}" if kind in KINDS else f"other{number}" for number, kind in enumerate(kinds[len(names):])]
        made = [Variable(name, kind, chance.choice(lists)) for name, kind in zip(names, kinds)]
        made += [Variable(name, kind, chance.choice([listed for listed in lists if listed != "inputVars"])) for name, kind in self.more()]
        chance.shuffle(made)
        self.lists = [(listed, [variable for variable in made if variable.listed == listed]) for listed in dict.fromkeys(lists)]
        self.variables = [variable for _, some in self.lists for variable in some]
        bools = [variable for variable in self.variables if variable.kind == "BOOL"]
        for number, variable in enumerate(bools):
            self.place(variable, number)
        if not any(map(is_input, bools)):
            bools[0].address, bools[0].listed = "%IX77.7", "localVars"
            self.lists = [("localVars", self.variables)]
        self.inputs = [variable.name for variable in bools if is_input(variable)]
        self.outputs = [variable.name for variable in bools if not is_input(variable)] or self.spare()
        self.kinds = {variable.name: variable.kind for variable in self.variables if variable.kind in PINS}
        self.blocks = {name: (kind, self.preset(kind)) for name, kind in self.kinds.items() if kind in KINDS}
        self.triggers = [(name, kind) for name, kind in self.kinds.items() if kind in TRIGGERS]
        self.initial = {variable.name + ".Q" * (variable.kind in TRIGGERS): variable.initial for variable in self.variables if variable.kind in ("BOOL", *TRIGGERS)}

    def more(self):
        """The names and the kinds of triggers, which are now and then those that the import would give, and of what only blocks that aren't known need."""
        triggers = self.random.choices(TRIGGERS, k=self.random.choice([0, 0, 1] if self.small else [0, 0, 1, 2]))
        names = [self.random.choice([f"{kind}{number}", f"{kind}_behindTheDoor{number}"]) for number, kind in enumerate(triggers, 1)]
        made = list(zip(names, triggers))
        if self.is_open:
            made += [("speed", "INT"), *((name, "RAMP") for name in RAMPS)]
            made += [(name, "BOOL") for name in self.random.sample(CLASHING, self.random.choice([0, 0, 1, 3]))]
        return made

    def spare(self):
        """A variable that isn't an input, where all others are."""
        self.lists.append(("outputVars", [Variable("spare", "BOOL", "outputVars")]))
        self.variables += self.lists[-1][1]
        return ["spare"]

    def place(self, variable, number):
        """Gives a variable an address and a value at the start, or leaves it without."""
        letters = {"inputVars": "I", "outputVars": "Q"}.get(variable.listed, "IIQM")
        if self.random.random() < 0.6:
            variable.address = "%" + self.random.choice(letters) + self.random.choice([f"X{number // 8}.{number % 8}", f"X{number + 20}", f"{number + 50}"])
        variable.initial = self.random.random() < 0.2

    def preset(self, kind):
        return {"PT": self.random.choice(list(DURATIONS)), "PV": self.random.choice([0, 1, 2, 3, 3, 5, 32767])}.get(KINDS[kind][2], 0)

    def output(self, name):
        return f"{name}.Q1" if self.kinds[name] in ("SR", "RS") else f"{name}.Q"

    # its networks

    def add(self, sort, word="", left=(), **more):
        self.elements.append(Element(sort, word, list(left), **more))
        return self.elements[-1]

    def is_so(self, probability):
        return self.random.random() < probability

    def operand(self):
        if self.kinds and self.is_so(0.2):
            return self.output(self.random.choice(list(self.kinds)))
        return self.random.choice(self.inputs + self.outputs)

    def contact(self, left):
        """A contact; now and then nothing leads to it. More of them have an edge where a jump may lead over them."""
        edge = self.edge(0.2 if self.open else 0.08)
        return self.add("contact", self.operand(), [] if self.is_so(0.0005) else left, negated=not edge and self.is_so(0.4), edge=edge)

    def edge(self, probability):
        return self.random.choice(EDGES) if self.is_so(probability) else ""

    def series(self, left, depth):
        """What the last parts of some in series give."""
        for _ in range(self.random.choice([1, 1, 2, 2, 3])):
            left = self.part(left, depth)
            self.nodes.append(left)
        return left

    def part(self, left, depth):
        """What a part gives, to which some elements lead."""
        forms = {"contact": 6, "parallel": 4 if depth else 0, "shunt": 0.6 if depth else 0, "bridge": 0.5 if depth else 0}
        forms |= {"block": 1.2 if self.uncalled else 0, "variable": 0.3, "coil": 0.5, "beside": 0.3, "alike": 0.6, "unknown": 1.2 * self.is_open}
        return getattr(self, self.random.choices(list(forms), list(forms.values()))[0] + "_part")(left, depth)

    def contact_part(self, left, depth):
        return [self.contact(left)]

    def parallel_part(self, left, depth):
        """Branches beside one another; now and then one of them begins elsewhere."""
        made = []
        for _ in range(self.random.choice([2, 2, 3])):
            made += self.beside(self.series(self.random.choice(self.nodes) if self.nodes and self.is_so(0.1) else left, depth - 1))
        return made

    def beside(self, elements):
        """What is to be beside other elements: now and then a coil is, and else what leads to it."""
        return before_coils(elements) if self.is_so(0.97) else elements

    def shunt_part(self, left, depth):
        """A wire beside a part."""
        wire, part = self.beside(left), self.beside(self.series(left, depth - 1))
        return self.random.choice([[*wire, *part], [*part, *wire]])

    def bridge_part(self, left, depth):
        upper, lower = self.series(left, depth - 1), self.beside(self.series(left, depth - 1))
        return [self.contact(upper), self.contact([*lower, self.contact(upper)])]

    def alike_part(self, left, depth):
        """Contacts beside one another, two nodes behind them."""
        made = [self.contact(left), self.contact(left)]
        return [self.contact(made), self.contact(made)]

    def block_part(self, left, depth):
        """A block, and what its output leads to; now and then it is used a second time."""
        name = self.uncalled[-1] if self.is_so(0.003) else self.uncalled.pop()
        _, other, parameter = PINS[self.kinds[name]]
        literal = self.add("inVariable", self.literal(name, parameter)) if parameter else None
        second = self.random.choice([[], self.series(self.start(), 0), self.random.choice(self.nodes or [[]])]) if other else []
        return [self.add("block", name, [] if self.is_so(0.02) else left, second=second, preset=literal)]

    def literal(self, name, parameter):
        """The preset of a block."""
        preset = self.blocks[name][1]
        return DURATIONS[preset] if parameter == "PT" else str(preset)

    def unknown_part(self, left, depth):
        """A block that isn't known, and one of its outputs."""
        return [self.random.choice(self.unknown(left).outputs)]

    def unknown(self, left):
        """A block that isn't known, and now and then a variable for a number that it gives."""
        ramp = self.ramps.pop() if self.ramps and self.is_so(0.4) else ""
        first, *others = ("RUN", "TARGET") if ramp else ("EN", "IN1", "IN2")
        pins = {first: self.led(left), **{name: [self.number()] for name in others}}
        block = self.add("block", ramp, foreign="RAMP" if ramp else self.random.choice(FUNCTIONS), pins=pins)
        words = ("DONE", "BUSY") if ramp else (self.random.choice(["OUT", "OUT", ""]), "ENO")
        block.outputs = [Element("output", word, block=block) for word in words]
        self.nodes += [[output] for output in block.outputs]
        if not ramp and self.is_so(0.4):
            self.add("outVariable", self.random.choice(["speed", "Nowhere"]), block.outputs[:1], foreign="INT")
        return block

    def led(self, left):
        """What leads to a block that isn't known: now and then contacts behind some elements, on names that needn't be declared."""
        for _ in range(self.random.choice([0, 0, 1, 2])):
            foreign = self.add("contact", self.random.choice(NOT_DECLARED), left, edge=self.edge(0.2), foreign="BOOL") if self.is_so(0.4) else None
            left = [foreign or self.contact(left)]
        return left

    def number(self):
        """What a block that isn't known has a number from."""
        blocks = [element for element in self.elements if element.sort == "block"]
        if not blocks or self.is_so(0.7):
            return self.add("inVariable", self.random.choice(NUMBERS), foreign="INT")
        block = self.random.choice(blocks)
        return self.random.choice(block.outputs or [Element("output", "ET", block=block)])

    def variable_part(self, left, depth):
        """A variable that has power itself, beside what leads there."""
        return [*self.beside(self.series(left, 0)), self.add("inVariable", self.operand())]

    def coil_part(self, left, depth):
        """A coil, and what is behind it."""
        return [self.coil(left)]

    def beside_part(self, left, depth):
        """A coil beside a contact, which is refused where it has several connections or a rail on its left."""
        return [self.coil([self.contact(left)] if self.is_so(0.99) else left), self.contact(left)]

    def coil(self, left):
        kind = self.random.choices(["plain", "negated", "set", "reset", *EDGES], [6, 2, 2, 2, 0.7, 0.7])[0]
        edge, storage = kind if kind in EDGES else "", kind if kind in ("set", "reset") else "none"
        return self.add("coil", self.random.choice(self.outputs), left, negated=kind == "negated", storage=storage, edge=edge)

    def start(self):
        return [self.rails[0 if self.has_one_rail else -1]]

    def rung(self):
        """Parts from a rail to what they act on; more begin at nodes between."""
        self.nodes = self.nodes[-1:] if self.is_so(0.1) else []
        self.end(self.series(self.start(), 1 if self.small else self.random.choice([0, 1, 1, 2])))
        for _ in range(self.random.choice([0, 0, 0, 1, 2])):
            left = self.random.choice(self.nodes)
            self.end(self.series(left, 0) if self.is_so(0.7) else left)

    def jump(self):
        """Ends what is jumped over, or begins more; now and then it ends in a jump over what is done where it isn't done."""
        if self.open and self.is_so(0.5):
            label = self.open.pop(self.random.randrange(len(self.open)) if self.is_so(0.01) else -1)
            if self.is_so(0.4):
                self.add("jump", self.begun(), self.start())
            self.label(label)
        if self.is_so(0.12):
            left = [self.contact(self.start())] if self.is_so(0.9) else self.start()
            self.add("jump", self.begun(), left)

    def begun(self):
        """The name of a label to which a jump leads; now and then there is no such label, or there are two."""
        self.jumps += self.is_so(0.995)
        if self.is_so(0.995):
            self.open.append(f"L{self.jumps}")
        return f"L{self.jumps}"

    def label(self, name):
        self.add("label", name)

    def ring(self):
        """Has a contact lead to one before it."""
        contacts = [element for element in self.elements if element.sort == "contact" and not element.foreign]
        first = self.random.randrange(len(contacts)) if contacts else 0
        for contact in contacts[first:first + 1]:
            contact.left.append(self.random.choice(contacts[first:first + 3]))

    def end(self, left):
        """What a node leads to."""
        for _ in range(self.random.choice([1, 1, 1, 2, 3])):
            if self.is_so(0.02):
                left = self.random.choice([[], self.start(), self.rails])
            sort = self.random.choices(["coil", "outVariable", "return", "unknown"], [10, 2, 0.3, self.is_open])[0]
            if sort == "unknown":
                self.unknown(left)
            elif sort == "coil":
                left = [self.coil(left)] if self.is_so(0.3) and left else self.coil(left).left
            else:
                self.add(sort, self.random.choice(self.outputs) if sort == "outVariable" else "", left)


def is_input(variable):
    """Whether nothing in the program may write it."""
    return variable.listed == "inputVars" or variable.address.startswith("%I")


# ---- what the elements do


def in_order(parts):
    """Those that act, and the labels, in the order in which they do: by execution numbers, if all that act have one, then from above, from the left, and
    as they are written. Blocks that aren't known do nothing, nor do variables of a number, but they are asked for their execution numbers."""
    ordered = [(place, part) for place, part in enumerate(parts) if part.sort in (*ACTING, "label")]
    numbered = all(part.execution for _, part in ordered if part.sort != "label")
    ordered.sort(key=lambda one: (one[1].execution * numbered, one[1].down, one[1].across, one[0]))
    return [part for _, part in ordered if not part.foreign]


def reached(order):
    """For each element from which a route leads to something that acts, the first thing to which one does."""
    found = {}
    for actor in order:
        near = [*actor.left, *actor.second]
        while near:
            element = near.pop()
            if element not in found:
                found[element] = actor
                near += element.left if element.sort in ("contact", "coil") else []
    return found


def watched(order):
    """For each that acts, the contacts with an edge whose triggers are looked at before it does."""
    found = {}
    for element, actor in reached(order).items():
        if element.sort == "contact" and element.edge:
            found.setdefault(actor, []).append(element)
    return found


def target_of(order, jump):
    """Where the label is that a jump leads to, None where there isn't just one."""
    found = [place for place, part in enumerate(order) if part.sort == "label" and part.word == jump.word]
    return found[0] if len(found) == 1 else None


class Networks(Run):
    """A program in a state, at first the fresh one."""

    def __init__(self, program):
        super().__init__(program)
        self.values.update(program.initial)
        self.pulses, self.watched = Counter(), None

    def scan(self, statements, inputs, moment):
        if self.watched is None:
            self.watched = watched(statements)
        super().scan(statements, inputs, moment)

    def look(self, element, clock):
        """Looks at the trigger of an element with an edge, and gives its Q."""
        found = clock == (element.edge == "rising")
        self.pulses[element], self.clocks[element] = found and not self.clocks[element], found
        return self.pulses[element]

    def lets_through(self, element):
        if element.sort == "contact" and element.edge:
            return self.pulses[element]
        return element.sort == "coil" or self.values[element.word] != element.negated

    def is_on(self, element):
        """Whether power begins at an element."""
        if element.sort == "block":
            return self.values[self.source.output(element.word)]
        if element.sort == "output":
            return self.values[element]
        return element.sort == "leftPowerRail" or element.sort == "inVariable" and self.values[element.word]

    def is_fed(self, elements):
        """Whether there is a way to some elements, through what lets power through, from where power begins."""
        near, seen = list(elements), set()
        while near:
            element = near.pop()
            if element in seen:
                continue
            seen.add(element)
            if self.is_on(element):
                return True
            if element.sort in ("contact", "coil") and self.lets_through(element):
                near += element.left
        return False

    def done(self, element):
        """What an element does, as statements."""
        fed = self.is_fed(element.left)
        if element.sort == "block" and element.word in dict(self.source.triggers):
            return [("trigger", element.word, fed)]
        if element.sort == "block":
            return [("call", element.word, fed, self.is_fed(element.second))]
        if element.sort == "return":
            return [("return",)] * fed
        if element.storage != "none":
            return [("assign", element.word, element.storage == "set")] * fed
        if element.edge:
            return [("assign", element.word, self.look(element, fed))]
        return [("assign", element.word, fed != element.negated)]

    def run(self, elements, moment):
        place = 0
        while place < len(elements):
            element = elements[place]
            for contact in self.watched.get(element, ()):
                self.look(contact, self.values[contact.word])
            if element.sort == "jump":
                place = target_of(elements, element) if self.is_fed(element.left) else place
            elif element.sort != "label":
                super().run(self.done(element), moment)
            place += 1


# ---- what is refused


def before_coils(elements):
    """The elements from which single coils lead to these."""
    while len(elements) == 1 and elements[0].sort == "coil":
        elements = elements[0].left
    return elements


def called_late(order):
    """The blocks that lead to something that acts before they do, and those that are called twice."""
    called = set()
    for actor in order:
        near, seen = [*actor.left, *actor.second], set()
        while near:
            element = near.pop()
            if element.sort == "block" and element.word not in called:
                yield element, "called_late"
            if element.sort in ("contact", "coil") and element not in seen:
                near += element.left
            seen.add(element)
        if actor.sort == "block":
            if actor.word in called:
                yield actor, "called_twice"
            called.add(actor.word)


def unwritable(order):
    """What no expression can say: contacts to which nothing leads, and coils beside others that have several connections or a rail on their left."""
    near, seen = [elements for actor in order for elements in (actor.left, actor.second)], set()
    while near:
        for first in before_coils(near.pop()):
            element = (before_coils([first]) + [None])[0]
            if first.sort == "coil" and (len(before_coils([first])) != 1 or element.sort == "leftPowerRail"):
                yield first, "parallel_coil"
            elif element.sort == "contact" and element not in seen:
                seen.add(element)
                left = before_coils(element.left)
                if not left:
                    yield element, "not_connected"
                near += [] if any(other.sort == "leftPowerRail" for other in left) else [left]


def crossing(order, place, end):
    """The jumps from one place to another that lead elsewhere than over what is whole; the last of those over which one leads may lead over others."""
    while place < end:
        jump, place = order[place], place + 1
        if jump.sort != "jump":
            continue
        target = target_of(order, jump)
        if target is None or not place <= target <= end:
            yield jump
            continue
        last, within = order[target - 1], target
        further = target_of(order, last) if last.sort == "jump" and place < target else None
        if further is not None and target < further <= end and last.left and all(other.sort == "leftPowerRail" for other in last.left):
            within -= 1
            yield from crossing(order, target, further)
        yield from crossing(order, place, within)
        place = further if within < target else target


def unopened(parts):
    """What is refused where blocks that aren't known are to be known."""
    for part in parts:
        if part.foreign and part.sort == "block":
            yield part, "block"
        elif part.foreign and part.sort != "inVariable":
            yield from ((part, "not_declared"), (part, "type"))


def refusals(parts, is_opened):
    """The fault lines that a diagram may have for its connections, and for its blocks that aren't known."""
    order = in_order(parts)
    known = [part for part in parts if part.sort != "rightPowerRail" and not part.foreign]
    connected = {other for part in known for other in (*part.left, *part.second)}
    wrong = [*called_late(order), *unwritable(order), *((jump, "jump") for jump in crossing(order, 0, len(order)))]
    wrong += [(other, "no_power") for other in connected if other.sort == "coil" and not other.left]
    wrong += [] if is_opened else unopened(parts)
    wrong += [(other, word) for other in reached(order) if other.foreign and other.sort == "contact" for word in ("not_declared", "type")]
    return {f"fault N5 element {element.number} {word}\n" for element, word in wrong}
