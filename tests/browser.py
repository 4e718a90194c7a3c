#!/usr/bin/env python3
"""Opens pages of `show --html` in a browser: browser.py PROGRAM [FOLDER].

For each program of examples/, in the fresh state with its inputs OFF and with all of them ON: the text that the browser has is that of
the drawing, line by line, and a picture in the light and in the dark mode is made, which differ. For each stimulus with a trace: the page
of its film has the name of the program as title and heading, the drawing for each record and a button with its moment; at first it looks as if the first one were chosen, and shows
another drawing where the last one is. Printed, each drawing is on one sheet, and no sheet has less than one. FOLDER gets the pages and
pictures, to be looked at. Needs chromium; without it the test is passed over. What is printed is read by pdftotext, if it is installed.
"""
import html.parser
import os
import pathlib
import re
import shutil
import subprocess
import sys
import tempfile

ROOT = pathlib.Path(__file__).resolve().parent.parent
BROWSERS = ("chromium", "chromium-browser", "google-chrome")
MODES = {"light": "1", "dark": "0"}
BUTTON = "<input type=radio name=record"
WORDS = re.compile(r"<label><input type=radio name=record>(.*?)</label>")


class Preformatted(html.parser.HTMLParser):
    """The text of the drawing, and whether there is a script."""

    def __init__(self):
        super().__init__()
        self.text, self.inside, self.has_script = "", False, False

    def handle_starttag(self, tag, attrs):
        self.inside |= tag == "pre"
        self.has_script |= tag == "script"

    def handle_endtag(self, tag):
        self.inside &= tag != "pre"

    def handle_data(self, data):
        self.text += data if self.inside else ""


def opened(browser, page, *words):
    """What the browser prints of a page."""
    done = subprocess.run([browser, "--headless", "--no-sandbox", "--disable-gpu", "--hide-scrollbars", *words, page.as_uri()],
                          stdout=subprocess.PIPE, stderr=subprocess.DEVNULL, check=True, timeout=120)
    return done.stdout


def drawing(program):
    """The lines behind END_VAR, without the rest of its line."""
    return program.read_text("ascii").split("END_VAR", 1)[1].splitlines()[1:]


def inputs(program):
    return [line.split()[0] for line in program.read_text("ascii").splitlines() if " AT %I" in line]


def text_faults(browser, lines, words, page):
    """What is wrong with the text of a page, which is written."""
    page.write_bytes(subprocess.run(words, stdout=subprocess.PIPE, check=True).stdout)
    found = Preformatted()
    found.feed(opened(browser, page, "--dump-dom").decode())
    have = iter(found.text.splitlines())
    wrong = [f"the line {line!r} isn't there, or not in its place" for line in lines if line not in have]
    return wrong + (["there is a script"] if found.has_script else [])


def picture_of(browser, page, scheme, *words):
    """A picture of a page in the light or the dark mode."""
    picture = page.with_suffix(".png")
    opened(browser, page, f"--blink-settings=preferredColorScheme={scheme}", "--window-size=1250,1000", f"--screenshot={picture}", *words)
    return picture.read_bytes()


def film_faults(browser, program, words, stimulus, page):
    """What is wrong with the page of a film."""
    moments = [record.split(",")[0] for record in stimulus.read_text("ascii").splitlines()[1:]]
    wrong = text_faults(browser, drawing(program) * len(moments), words, page)
    text, pages = page.read_text("ascii"), {"as it is": page}
    if WORDS.findall(text) != [f"{moment} ms" for moment in moments]:
        wrong.append("a moment isn't on its button")
    if f"<title>{program.name}</title>" not in text or f"<h1>{program.name}</h1>" not in text:
        wrong.append("the name of the program isn't title and heading")
    for name, (before, behind) in {"first": text.split(BUTTON, 1), "last": text.rsplit(BUTTON, 1)}.items():
        pages[name] = page.with_suffix(f".{name}.html")
        pages[name].write_text(f"{before}{BUTTON} checked{behind}", "ascii")
    pictures = {name: picture_of(browser, one, MODES["light"]) for name, one in pages.items()}
    if pictures["as it is"] != pictures["first"]:
        wrong.append("the first button doesn't look chosen at first")
    if pictures["last"] == pictures["first"]:
        wrong.append("the last button shows nothing else")
    pages["dark"] = page.with_suffix(".dark.html")
    pages["dark"].write_text(text, "ascii")
    if picture_of(browser, pages["dark"], MODES["dark"]) == pictures["as it is"]:
        wrong.append("the modes look alike")
    return wrong + print_faults(browser, page, len(moments))


def print_faults(browser, page, count):
    """What is wrong with the sheets of a film of so many drawings, each of which fits on one."""
    paper = page.with_suffix(".pdf")
    opened(browser, page, f"--print-to-pdf={paper}", "--no-pdf-header-footer")
    if not shutil.which("pdftotext"):
        return []
    text = subprocess.run(["pdftotext", "-layout", paper, "-"], stdout=subprocess.PIPE, check=True).stdout.decode()
    sheets = [(sheet.count("At "), sheet.count("After it:")) for sheet in text.split("\f")[:-1]]
    whole = all(begun == ended > 0 for begun, ended in sheets)
    return [] if whole and sum(begun for begun, _ in sheets) == count else [f"printed, drawings begin and end on sheets as {sheets}"]


def faults(browser, program, words, page):
    """What is wrong with the page of one scan."""
    wrong = text_faults(browser, drawing(program), words, page)
    pictures = {mode: page.with_suffix(f".{mode}.png") for mode in MODES}
    for mode, scheme in MODES.items():
        opened(browser, page, f"--blink-settings=preferredColorScheme={scheme}", "--window-size=1250,1000", f"--screenshot={pictures[mode]}")
    if len({picture.read_bytes() for picture in pictures.values()}) != len(MODES):
        wrong.append("the modes look alike")
    return wrong


def main():
    """Opens all pages and answers the status."""
    ladder, browser = os.path.abspath(sys.argv[1]), next(filter(None, map(shutil.which, BROWSERS)), None)
    if not browser:
        print("no browser: the test of pages is passed over")
        return 0
    passed = tried = 0
    with tempfile.TemporaryDirectory() as scratch:
        folder = pathlib.Path((sys.argv[2:] or [scratch])[0]).resolve()
        folder.mkdir(parents=True, exist_ok=True)
        for program in sorted(ROOT.glob("examples/*/*.ld")):
            listed = inputs(program)
            for number in (0, 2 ** len(listed) - 1):
                page = folder / f"{program.parent.name}.{program.stem}.{number}.html"
                wrong = faults(browser, program, [ladder, "show", "--html", "--number", str(number), program, *listed], page)
                tried, passed = tried + 1, passed + (not wrong)
                for fault in wrong:
                    print(f"{page.name}: {fault}")
        for trace in sorted(ROOT.glob("examples/*/*.trace.csv")):
            stimulus = trace.with_name(trace.name.replace(".trace", ""))
            if not stimulus.exists():
                continue
            program = next(path for path in sorted(trace.parent.glob("*.ld")) if path.stem != "draft")
            page = folder / f"{trace.parent.name}.{stimulus.stem}.film.html"
            wrong = film_faults(browser, program, [ladder, "show", "--html", "--stimulus", stimulus, program], stimulus, page)
            tried, passed = tried + 1, passed + (not wrong)
            for fault in wrong:
                print(f"{page.name}: {fault}")
    print(f"{passed} of {tried} pages are shown as they must be")
    return 0 if passed == tried else 1


if __name__ == "__main__":
    sys.exit(main())
