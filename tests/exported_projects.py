"""Projects in PLCopen XML as `ladder export --xml` writes them: what they declare, their elements, and a run of these."""
import re
import xml.etree.ElementTree as ElementTree

from network_programs import Element, Networks
from statements import KINDS

SPACE = "{http://www.plcopen.org/xml/tc6_0201}"
ORDERED = ("coil", "block", "jump", "label", "return")
UNITS = {"ms": 1, "s": 1000, "m": 60_000, "h": 3_600_000, "d": 86_400_000}
SPELLED = {("SR", "SET1"): "S1", ("SR", "RESET"): "R", ("RS", "SET"): "S", ("RS", "RESET1"): "R1"}


def inside(element, *path):
    """The element at the end of a path of names."""
    for name in path:
        element = element.find(SPACE + name)
    return element


def sort_of(element):
    return element.tag.removeprefix(SPACE)


def place_of(element):
    position = inside(element, "position")
    return int(position.get("x")), int(position.get("y"))


class Project:
    """A project with one program, whose elements are in the order in which they act."""

    def __init__(self, text):
        self.triggers, self.integers = [], {}
        self.inputs, self.outputs, self.initial, self.blocks = [], [], {}, {}
        document = ElementTree.fromstring(text)
        [pou] = document.iter(SPACE + "pou")
        [run] = document.iter(SPACE + "pouInstance")
        assert pou.get("pouType") == "program"
        assert run.get("typeName") == pou.get("name") == inside(document, "contentHeader").get("name")
        for variable in pou.iter(SPACE + "interface"):
            for declared in variable.iter(SPACE + "variable"):
                self.declare(declared)
        found = list(inside(pou, "body", "LD"))
        self.known = {element.get("localId"): Element(sort_of(element)) for element in found}
        assert len(self.known) == len(found), "two elements with one number"
        assert len({place_of(element) for element in found}) == len(found), "two elements at one place"
        for element in found:
            self.fill(self.known[element.get("localId")], element)
        self.elements = sorted((element for element in self.known.values() if element.execution), key=lambda element: element.execution)
        assert [element.execution for element in self.elements] == list(range(1, len(self.elements) + 1)), "not in order"
        jumps, labels = [[element.word for element in self.elements if element.sort == sort] for sort in ("jump", "label")]
        assert jumps == labels and len(jumps) == len(set(jumps)), "a jump without a label"

    def declare(self, variable):
        name, kind = variable.get("name"), inside(variable, "type")[0]
        assert name.upper() not in map(str.upper, [*self.initial, *self.blocks]), "two names are one"
        if sort_of(kind) == "derived":
            self.blocks[name] = kind.get("name"), 0
            return
        assert sort_of(kind) == "BOOL"
        value = inside(variable, "initialValue")
        self.initial[name] = value is not None and inside(value, "simpleValue").get("value") == "TRUE"
        (self.inputs if variable.get("address", "").startswith("%I") else self.outputs).append(name)

    def output(self, name):
        return f"{name}.Q1" if self.blocks[name][0] in ("SR", "RS") else f"{name}.Q"

    def left_of(self, made, found):
        """What is connected on the left of something, which stands before it."""
        left = [self.known[connection.get("refLocalId")] for connection in found.iter(SPACE + "connection")]
        assert all(other.across < made.across for other in left), f"{made} stands before what it is connected with"
        return left

    def fill(self, made, found):
        """Reads an element. Those that it is connected with were read before."""
        assert (made.sort in ORDERED) == ("executionOrderId" in found.attrib), made.sort
        made.execution, (made.across, made.down) = int(found.get("executionOrderId", 0)), place_of(found)
        made.word = found.get("instanceName") or found.get("label") or found.findtext(SPACE + "variable") or found.findtext(SPACE + "expression")
        made.negated, made.storage = found.get("negated") == "true", found.get("storage", "none")
        if made.sort == "block":
            self.connect(made, found)
        else:
            made.left = self.left_of(made, found)

    def connect(self, made, found):
        """Reads the inputs of a block."""
        kind, _ = self.blocks[made.word]
        assert found.get("typeName") == kind
        pins = {}
        for pin in inside(found, "inputVariables"):
            name = pin.get("formalParameter")
            pins[SPELLED.get((kind, name), name)] = self.left_of(made, pin)
        first, second, parameter = KINDS[kind]
        assert set(pins) == {first, second, parameter} - {None}
        made.left, made.second = pins[first], pins.get(second, [])
        if parameter:
            [literal] = pins[parameter]
            self.blocks[made.word] = kind, self.preset(literal.word)

    def preset(self, word):
        if word.isdigit():
            return int(word)
        number, unit = re.fullmatch(r"T#(\d+)(\w+)", word).groups()
        return int(number) * UNITS[unit]

    def fresh(self):
        return Passing(self)


class Passing(Networks):
    """The elements of a project in a state, at first the fresh one. A jump passes over those up to its label."""

    def run(self, elements, moment):
        label = None
        for element in elements:
            if label is None and element.sort == "jump" and self.is_fed(element.left):
                label = element.word
            if label is None and element.sort not in ("jump", "label"):
                super().run([element], moment)
            if element.sort == "label" and element.word == label:
                label = None
