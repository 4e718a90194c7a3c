#!/usr/bin/env python3
"""The list of a circuit by other means, to compare with: others.py filter|clingo|diagram CIRCUIT COIL INPUT...

`filter` writes a program in C that scans once for each number and prints the rows; `clingo` writes an answer set program, one answer
for each cause; `diagram` writes a program in C that makes the coil's binary decision diagram with BuDDy (Debian's libbdd-dev; `-lbdd`)
and prints a row for each path to ON, as `causes --grouped` does. All know wires, plain and negated contacts and plain coils, which the
circuits without blocks here are made of.
"""
import re
import sys

COLUMNS, PITCH = 10, 12


def rungs(text):
    """The wire lines of each rung, with the name lines over them."""
    drawing = text.split("END_VAR", 1)[1]
    for block in re.split(r"\n\s*\n", drawing.strip("\n")):
        lines = [line.ljust(PITCH * COLUMNS + 1) for line in block.split("\n")]
        yield lines[0::2], lines[1::2]


def cell(lines, row, column):
    return lines[row][PITCH * column + 1 : PITCH * (column + 1)]


def groups(names, wires, column):
    """The rows that the joints on the left of a column join."""
    rows = range(len(wires))
    group = list(rows)
    for row in rows[1:]:
        if names[row][PITCH * column] == "|":
            group[row] = group[row - 1]
    return [[row for row in rows if group[row] == first and wires[row][PITCH * column] in "-+"] for first in group]


def links(names, wires):
    """For each cell by column and row: its place, the places that feed it, and what is drawn there."""
    for column in range(COLUMNS):
        joined = groups(names, wires, column) if column else [None] * len(wires)
        for row in range(len(wires)):
            drawn = cell(wires, row, column)
            if drawn.strip():
                feeding = None if column == 0 else [(other, column - 1) for other in joined[row] if cell(wires, other, column - 1)[-1] != " "]
                yield (row, column), feeding, drawn, cell(names, row, column).replace("|", " ").strip()


def literal(drawn, name):
    """What lets power through: the variable's name, with its sign."""
    found = re.search(r"\|([ /])\|", drawn)
    return (name, found.group(1) == " ") if found else None


def variables(text):
    return re.findall(r"^\s*(\w+)(?: AT \S+)?\s*:\s*BOOL", text, re.M)


def as_filter(text, coil, listed):
    lines = ["#include <stdio.h>", "#include <stdint.h>", "static char buffer[1 << 16];", "int main(void) {",
             "setvbuf(stdout, buffer, _IOFBF, sizeof buffer);", f"for (uint64_t n = 0; n < UINT64_C(1) << {len(listed)}; n++) {{"]
    lines += [f"unsigned {name} = {f'n >> {listed.index(name)} & 1' if name in listed else 0};" for name in variables(text)]
    for number, (names, wires) in enumerate(rungs(text)):
        writes = []
        for (row, column), feeding, drawn, name in links(names, wires):
            place = f"l{number}_{row}_{column}"
            left = "1" if feeding is None else " | ".join(f"l{number}_{r}_{c}" for r, c in feeding) or "0"
            held = literal(drawn, name)
            through = "" if held is None else f" & {held[0]}" if held[1] else f" & !{held[0]}"
            lines.append(f"unsigned {place} = ({left}){through};")
            if "( )" in drawn:
                writes.append(f"{name} = {place};")
        lines += writes
    row = ["char row[96], *p = row + sizeof row, *end = p; *--p = '\\n';"]
    row += [f"*--p = '0' + {name}; *--p = ',';" for name in reversed(listed)]
    row += ["uint64_t d = n; do *--p = '0' + d % 10; while (d /= 10);", "fwrite(p, 1, end - p, stdout);"]
    return "\n".join([*lines, f"if ({coil}) {{", *row, "}", "}", "return 0;", "}"])


def as_clingo(text, coil, listed):
    value = {name: f"i({listed.index(name)})" for name in listed}
    rules = [f"{{ i(0..{len(listed) - 1}) }}."]
    for number, (names, wires) in enumerate(rungs(text)):
        writes = {}
        for (row, column), feeding, drawn, name in links(names, wires):
            held = literal(drawn, name)
            signal = "" if held is None else value.get(held[0], "off") if held[1] else f"not {value.get(held[0], 'off')}"
            for left in [None] if feeding is None else feeding:
                body = ", ".join(part for part in ("" if left is None else f"l({number},{left[0]},{left[1]})", signal) if part)
                rules.append(f"l({number},{row},{column})" + (f" :- {body}." if body else "."))
            if "( )" in drawn:
                writes[name] = f"l({number},{row},{column})"
        value.update(writes)
    return "\n".join([*rules, f":- not {value[coil]}.", "#show i/1."])


# what prints the paths to ON, before the program that makes the diagram
PATHS = """#include <bdd.h>
#include <stdint.h>
#include <stdio.h>
static char buffer[1 << 16], cells[2 * LISTED + 2];
static void paths(BDD node, int level, int dashes) {
    if (node == bddfalse) return;
    int next = node == bddtrue ? LISTED : bdd_var(node);
    for (; level < next; level++, dashes++) cells[2 * level + 1] = '-';
    if (node == bddtrue) { printf("%llu%s", 1ull << dashes, cells); return; }
    cells[2 * level + 1] = '0';
    paths(bdd_low(node), level + 1, dashes);
    cells[2 * level + 1] = '1';
    paths(bdd_high(node), level + 1, dashes);
}
int main(void) {
    setvbuf(stdout, buffer, _IOFBF, sizeof buffer);
    for (int i = 0; i < LISTED; i++) cells[2 * i] = ',';
    cells[2 * LISTED] = 10;
    bdd_init(NODES, NODES / 10);
    bdd_gbc_hook(NULL);
    bdd_setvarnum(LISTED);"""


def as_diagram(text, coil, listed):
    lines = [f"#define LISTED {len(listed)}", "#define NODES 100000", PATHS]
    lines += [f"BDD {name} = {f'bdd_ithvar({listed.index(name)})' if name in listed else 'bddfalse'};" for name in variables(text)]
    for number, (names, wires) in enumerate(rungs(text)):
        writes = []
        for (row, column), feeding, drawn, name in links(names, wires):
            place = f"l{number}_{row}_{column}"
            left = "bddtrue" if feeding is None else "bddfalse"
            for r, c in feeding or []:
                left = f"bdd_or({left}, l{number}_{r}_{c})"
            held = literal(drawn, name)
            through = left if held is None else f"bdd_and({left}, {held[0] if held[1] else f'bdd_not({held[0]})'})"
            lines.append(f"BDD {place} = bdd_addref({through});")
            if "( )" in drawn:
                writes.append(f"{name} = {place};")
        lines += writes
    return "\n".join([*lines, f"paths({coil}, 0, 0);", "return 0;", "}"])


def main():
    kind, circuit, coil, *listed = sys.argv[1:]
    with open(circuit, encoding="ascii") as file:
        text = file.read()
    print({"filter": as_filter, "clingo": as_clingo, "diagram": as_diagram}[kind](text, coil, listed))


if __name__ == "__main__":
    main()
