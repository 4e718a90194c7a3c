"""Programs of network_programs.py as projects in PLCopen XML, as three tools write them, and spoiled now and then."""
from network_programs import ACTING, EDGES, PINS, Element, in_order, reached, refusals

SPELLED = {("SR", "S1"): "SET1", ("SR", "R"): "RESET", ("RS", "S"): "SET", ("RS", "R1"): "RESET1"}
# Ways in which an element is spoiled: the reason that is told, and the elements that can be.
SPOILED = {"pin_edge": ("edge", ("block",)), "edge": ("edge", ("outVariable",)), "position": ("value", ACTING), "edge_word": ("value", ("contact", "coil")),
           "modifier": ("modifier", ("outVariable", "inVariable", "return")), "edge_modifier": ("modifier", ("contact", "coil")),
           "not_declared": ("not_declared", ("contact", "coil", "outVariable")), "connection": ("connection", ("contact", "coil", "return")),
           "type": ("type", ("coil", "outVariable")), "input_or_output": ("input_or_output", ("contact",)), "no_preset": ("no_preset", ("block",))}
NOTES = ("Seal-in & horn", "x < y, \u00fcber", "*) END_VAR (*", "no note", "]] >", "100 % -- \"so\"", "'")


def opened_name(output):
    """The name that the output of a block that isn't known has, in capitals, if it is free."""
    block = output.block
    if block.word:
        return f"{block.word}_{output.word}".upper()
    return f"{block.foreign}{block.number}".upper() + (f"_{output.word}" if output.word not in ("", "OUT") else "")


class Writer:
    """A program as a tool writes it: by positions, by the order of the document, or by execution numbers."""

    def __init__(self, program, chance):
        self.program, self.random = program, chance
        self.manner = chance.choice(["positions", "document", "numbers"])
        self.loose = chance.choice([0, 0, 0.02] if program.small else [0, 0.05, 0.3])
        self.parts = list(program.elements)
        {"positions": self.positioned, "document": self.listed, "numbers": self.numbered}[self.manner]()
        self.spoiled, self.way, self.is_named = None, "", False
        self.is_opened = self.is_so(0.95) if program.is_open else self.is_so(0.1)
        if self.is_so(0.04):
            self.spoil()

    def is_so(self, probability):
        return self.random.random() < probability

    # where elements stand

    def number(self, parts, numbers):
        for part, number in zip(parts, numbers):
            part.number = number

    def spread(self):
        """Gives positions from above and from the left, in the order of the elements; now and then one stands elsewhere."""
        down, across = 40, 60
        for part in self.parts:
            if self.is_so(0.4):
                down, across = down + self.random.choice([1, 30, 60]), self.random.choice([60, 120, 200])
            part.down, part.across, across = down, across, across + self.random.choice([20, 80])
            if self.is_so(0.002):
                part.down = 0

    def positioned(self):
        """Positions, and no execution numbers, or not for all."""
        self.spread()
        self.note()
        self.right_rail()
        if self.is_so(0.3):
            self.random.shuffle(self.parts)
        acting = [part for part in self.parts if part.sort in ACTING]
        for part in self.random.sample(acting, self.random.randrange(len(acting))) if self.is_so(0.2) else []:
            part.execution = self.random.randint(1, 99)
        self.number(self.program.elements, self.random.sample(range(1, 1000), len(self.program.elements)))
        self.number([part for part in self.parts if part not in self.program.elements], range(1001, 1100))

    def listed(self):
        """The order of the document alone, and one rail on the left."""
        rails = self.program.rails
        for part in self.parts:
            part.left = [rails[0] if other in rails else other for other in part.left]
            part.second = [rails[0] if other in rails else other for other in part.second]
            part.pins = {name: [rails[0] if other in rails else other for other in left] for name, left in part.pins.items()}
        self.parts = [part for part in self.parts if part not in rails[1:]]
        if self.is_so(0.03):
            self.random.shuffle(self.parts)
        self.note()
        self.number(self.parts, range(len(self.parts)))
        self.right_rail()
        self.parts[-1].number = 2147483646

    def numbered(self):
        """Execution numbers of all that act; positions and the order of the document say nothing."""
        number = 0
        for part in self.parts:
            if part.sort in (*ACTING, "label"):
                number += self.random.choice([1, 1, 1, 2, 10])
                part.execution = number
        if self.is_so(0.5):
            for part in self.parts:
                part.down, part.across = self.random.randrange(900), self.random.randrange(900)
        if self.is_so(0.03):
            chosen = self.random.choice([part for part in self.parts if part.execution])
            chosen.execution = self.random.randint(1, number)
        self.note()
        self.random.shuffle(self.parts)
        self.number(self.parts, self.random.sample(range(1, 100_000), len(self.parts)))

    def spoil(self):
        """Has an element written in a way that is refused, if it has to do with something that acts."""
        self.way = self.random.choice(list(SPOILED))
        if not {"type": self.program.kinds, "input_or_output": self.program.blocks}.get(self.way, True):
            return
        matters = reached(in_order(self.parts))
        some = [part for part in self.parts if part.sort in SPOILED[self.way][1] and not part.foreign and (part.sort != "contact" or part in matters)]
        some = [part for part in some if self.way != "no_preset" or part.preset]
        self.spoiled = self.random.choice(some) if some else None

    def is_spoiled(self, element, way):
        return element is self.spoiled and self.way == way

    def operand(self, element):
        """The word of an element, as it is written."""
        if self.is_spoiled(element, "not_declared"):
            names = [] if self.is_opened and element.sort == "outVariable" else ["Nowhere", element.word.split(".")[0] + "1"]
            return self.random.choice(["Nowhere.Q", "", *names])
        if self.is_spoiled(element, "type"):
            return self.program.output(self.random.choice(list(self.program.kinds)))
        if self.is_spoiled(element, "input_or_output"):
            return next(iter(self.program.blocks)) + self.random.choice([".ET", ".QX", ".", ".Q.Q"])
        return element.word if "#" in element.word else self.spelled(element.word)

    def refusals(self):
        """The fault lines that the text may have, apart from that of a drawing that is too large."""
        found = refusals(self.parts, self.is_opened)
        return found | ({f"fault N5 element {self.spoiled.number} {SPOILED[self.way][0]}\n"} if self.spoiled else set())

    def opened(self):
        """The outputs of blocks that aren't known on which something depends, by their names in capitals."""
        taken = {variable.name.upper() for variable in self.program.variables}
        found = {}
        for output in reached(in_order(self.parts)):
            if output.sort == "output":
                name = opened_name(output)
                names = [name, *(f"{name}_{number}" for number in range(1, 9))]
                found[next(name for name in names if name not in taken)] = output
        return found

    def note(self):
        """Puts comments and the like between the elements."""
        sort = "vendorElement" if self.manner == "document" else "comment"
        for _ in range(self.random.choice([0, 0, 1] if self.program.small else [0, 1, 3])):
            self.parts.insert(self.random.randint(1, len(self.parts)), Element(sort if self.is_so(0.8) else "label", self.random.choice(NOTES)))

    def right_rail(self):
        self.parts.append(Element("rightPowerRail", left=[part for part in self.parts if part.sort == "coil" and self.manner == "positions"]))

    # the words of XML

    def gap(self):
        """What may stand between two tags."""
        if not self.is_so(self.loose):
            return "\n" if self.is_so(0.1) else ""
        return self.random.choice([" ", "\n", "\t", "\r\n", "\n   ", "<!-- a < b & c -->", "<?tool x?>", "<!---->"])

    def escaped(self, text, quote=""):
        """Text with references for what can't stand in it, and for some characters that can."""
        made = text.replace("&", "&amp;").replace("<", "&lt;").replace(">", "&gt;").replace(quote or '"', {"'": "&apos;"}.get(quote, "&quot;"))
        if made == text and text and self.is_so(self.loose / 3):
            place = self.random.randrange(len(text))
            made = text[:place] + self.random.choice([f"&#{ord(text[place])};", f"&#x{ord(text[place]):X};"]) + text[place + 1:]
        return made

    def attributes(self, pairs):
        words = []
        for name, value in self.random.sample(list(pairs.items()), len(pairs)):
            quote, (blank, equals) = self.random.choice(['"', '"', "'"]), (" ", "=")
            if self.is_so(self.loose):
                blank, equals = self.random.choice(["  ", "\n", "\t", "\r\n"]), self.random.choice(["=", " = ", "=\n"])
            words.append(blank + name + equals + quote + self.escaped(str(value), quote) + quote)
        return "".join(words)

    def tag(self, name, pairs=None, *children):
        """An element with these attributes, and others in it."""
        head, inside = name + self.attributes(pairs or {}), "".join(self.gap() + child for child in children)
        if not inside and self.is_so(0.9):
            return f"<{head}{' ' if self.is_so(0.3) else ''}/>"
        return f"<{head}>{inside}{self.gap()}</{name}{' ' if self.is_so(self.loose / 2) else ''}>"

    def words(self, name, text, pairs=None):
        """An element with nothing but text in it."""
        written = self.escaped(text)
        if self.is_so(self.loose / 2) and "]]" not in text:
            written = f"<![CDATA[{text}]]>"
        elif self.is_so(self.loose / 5) and written == text:
            written = f"{text[:1]}<!-- x -->{text[1:]}"
        return f"<{name}{self.attributes(pairs or {})}>{written}</{name}>"

    def spelled(self, word):
        """A name as another person writes it: the case of letters means nothing."""
        return self.random.choice([word.upper(), word.lower()]) if self.is_so(0.1) else word

    # parts of the document

    def note_text(self, text):
        name = "p" if self.program.small else "xhtml:p"
        return self.words(name, text) if self.is_so(0.6) or "]]" in text else f"<{name}><![CDATA[{text}]]></{name}>"

    def variable(self, variable):
        pairs = {"name": variable.name}
        if variable.address:
            pairs["address"] = variable.address
        kind = self.tag("derived", {"name": self.spelled(variable.kind) if variable.kind in (*PINS, "RAMP") else "Recipe"})
        kind = self.tag(variable.kind) if variable.kind not in (*PINS, "RAMP", "derived") else kind
        inside = [self.tag("type", None, kind)]
        if variable.kind == "BOOL" and (variable.initial or self.is_so(0.1)):
            value = self.random.choice(["TRUE", "1", "true"] if variable.initial else ["FALSE", "0", "False"])
            inside.append(self.tag("initialValue", None, self.tag("simpleValue", {"value": value})))
        if self.is_so(0.1) and not self.program.small:
            inside.append(self.tag("documentation", None, self.note_text(self.random.choice(NOTES))))
        return self.tag("variable", pairs, *inside)

    def interface(self):
        """The lists of variables."""
        lists = []
        for listed, variables in self.program.lists:
            kept = {name: "false" for name in ("retain", "constant") if self.is_so(0.1)}
            lists.append(self.tag(listed, kept, *map(self.variable, variables)))
        return self.tag("interface", None, *lists)

    def relative(self):
        return [self.tag("relPosition", {"x": self.random.randint(0, 40), "y": 8})] if self.manner == "positions" and not self.program.small else []

    def connection(self, other):
        pairs = {"refLocalId": (other.block or other).number if other else 123_456}
        if other is None:
            pass
        elif other.sort == "output":
            pairs |= {"formalParameter": other.word} if other.word or self.is_so(0.5) else {}
        elif other.sort == "block" and self.is_so(0.8):
            pairs["formalParameter"] = self.program.output(other.word).split(".")[1]
        elif self.is_so(0.02):
            pairs["formalParameter"] = ""
        ways = [self.tag("position", {"x": 60, "y": number}) for number in range(self.random.choice([0, 0, 2]))] if self.relative() else []
        return self.tag("connection", pairs, *ways)

    def point(self, elements):
        """Where something is connected, or nothing."""
        if not elements and self.is_so(0.5):
            return []
        return [self.tag("connectionPointIn", None, *self.relative(), *map(self.connection, elements))]

    def pin(self, name, elements, *edge):
        """An input of a block."""
        more = {"negated": "false", "edge": "none", "storage": "none"} if self.is_so(0.1) and not self.program.small else {}
        more |= {"edge": word for word in edge}
        return self.tag("variable", {"formalParameter": name, **more}, *self.point(elements))

    def pins(self, element):
        """The inputs of a block by their names, and the names of its outputs."""
        if element.foreign:
            return list(element.pins.items()), [output.word for output in element.outputs]
        kind = self.program.kinds[element.word]
        first, second, preset = PINS[kind]
        pins = [(SPELLED.get((kind, first), first) if self.is_so(0.4) else first, element.left)]
        pins += [(SPELLED.get((kind, second), second) if self.is_so(0.4) else second, element.second)] if second and (element.second or self.is_so(0.8)) else []
        pins += [(preset, [element.preset])] if preset and not self.is_spoiled(element, "no_preset") else []
        if self.is_so(0.2):
            self.random.shuffle(pins)
        return pins, [self.program.output(element.word).split(".")[1], *{"PT": ["ET"], "PV": ["CV"]}.get(preset, [])]

    def block(self, element):
        """The inputs and outputs of a block; one of them has an edge, where that is to be refused."""
        pins, outputs = self.pins(element)
        edges = [[] for _ in (*pins, *outputs)]
        if self.is_spoiled(element, "pin_edge"):
            self.random.choice(edges).append(self.random.choice(EDGES))
        inputs = [self.pin(*pin, *edge) for pin, edge in zip(pins, edges)]
        given = [({"formalParameter": name} | {"edge": word for word in edge}) for name, edge in zip(outputs, edges[len(pins):])]
        made = [self.tag("inputVariables", None, *inputs), self.tag("inOutVariables")]
        return made + [self.tag("outputVariables", None, *(self.tag("variable", pairs, self.tag("connectionPointOut")) for pairs in given))]

    def inside(self, element):
        """What an element has in it, behind its position."""
        out = [self.tag("connectionPointOut", None, *self.relative())] if not self.program.small else []
        if element.sort == "block":
            return self.block(element)
        if element.sort == "leftPowerRail":
            return out * self.random.randint(1, 3)
        left = self.point(element.left + [None] * self.is_spoiled(element, "connection"))
        if element.sort in ("inVariable", "outVariable"):
            left = left if element.sort == "outVariable" else out
            return left + [self.words("expression", self.operand(element))]
        if element.sort in ("contact", "coil"):
            return left + out + [self.words("variable", self.operand(element))]
        if element.sort == "comment":
            return [self.tag("content", None, self.note_text(element.word))]
        if element.sort == "vendorElement":
            return [self.tag("alternativeText", None, self.note_text(element.word)), self.tag("addData", None, self.tag("data", {"name": "x"}, self.tag("LD")))]
        return left

    def modifiers(self, element):
        """The attributes of a contact or a coil, and those of another element that is refused for them."""
        negated, edge, storage = element.negated or self.is_spoiled(element, "modifier"), element.edge or "none", element.storage
        if self.is_spoiled(element, "edge_word"):
            negated, edge, storage = False, self.random.choice(["both", "up"]), "none"
        if self.is_spoiled(element, "edge") or self.is_spoiled(element, "edge_modifier"):
            edge = self.random.choice(EDGES)
        if self.is_spoiled(element, "edge_modifier"):
            storage = self.random.choice(["none", "set", "reset"]) if element.sort == "coil" else "none"
            negated = storage == "none"
        pairs = {"edge": edge} if edge != "none" or self.is_so(0.1) else {}
        pairs |= {"negated": "true"} if negated else {"negated": "false"} if self.is_so(0.3) else {}
        return pairs | ({"storage": storage} if storage != "none" or self.is_so(0.1) else {})

    def type_and_name(self, element):
        """The attributes that say which block an element is."""
        pairs = {"typeName": self.spelled(element.foreign or self.program.kinds[element.word])}
        return pairs | ({"instanceName": self.spelled(element.word)} if element.word else {})

    def element(self, element):
        """An element of the diagram."""
        pairs = {"localId": element.number}
        if element.execution or element.sort in ACTING and self.is_so(0.1 if self.manner == "positions" else 0):
            pairs["executionOrderId"] = element.execution
        if element.sort in ("label", "jump"):
            pairs["label"] = element.word
        if element.sort == "block":
            pairs |= self.type_and_name(element)
        if element.sort in ("contact", "coil") or self.is_spoiled(element, "modifier") or self.is_spoiled(element, "edge"):
            pairs |= self.modifiers(element)
        if self.manner == "positions" and not self.program.small:
            pairs |= {"width": self.random.randint(2, 99), "height": self.random.randint(2, 99)}
        across = self.random.choice(["-5", "1.5", "", "1234567890"]) if self.is_spoiled(element, "position") else element.across
        has_place = across or element.down or self.is_so(0.8 if self.manner == "document" and not self.program.small else 0.1)
        place = [self.tag("position", {"x": across, "y": element.down})] if has_place or self.is_spoiled(element, "position") else []
        return self.tag(element.sort, pairs, *place, *self.inside(element))

    def pous(self):
        body = self.tag("body", None, self.tag("LD", None, *map(self.element, self.parts)))
        made = [self.tag("pou", {"name": self.program.name, "pouType": "program"}, self.interface(), body)]
        if not self.program.small and self.is_so(0.3):
            statements = self.tag("body", None, self.tag("ST", None, self.words("xhtml:p", "x := a & b;")))
            made.insert(self.random.choice([0, 1]), self.tag("pou", {"name": "other", "pouType": "program" if self.is_named else "functionBlock"}, self.tag("interface"), statements))
        return self.tag("pous", None, *made)

    def text(self):
        """The document."""
        version = self.random.choice(["http://www.plcopen.org/xml/tc6_0201", "http://www.plcopen.org/xml/tc6_0200"])
        spaces = {} if self.program.small else {"xmlns": version, "xmlns:xhtml": "http://www.w3.org/1999/xhtml"}
        parts = [self.tag("types", None, *[self.tag("dataTypes")] * (not self.program.small), self.pous())]
        if not self.program.small:
            parts.insert(0, self.tag("fileHeader", {"companyName": "", "productName": "x & y", "creationDateTime": "2020-01-01T00:00:00"}))
            parts.append(self.tag("instances", None, self.tag("configurations")))
        before = self.random.choice(["", "\ufeff", '<?xml version="1.0" encoding="utf-8"?>', "<?xml version='1.0' encoding='UTF-8' standalone='yes'?>\n", "<!-- made -->\n"])
        return before + self.tag("project", spaces, *parts) + self.random.choice(["", "\n", "\n<!-- end -->\n"])
