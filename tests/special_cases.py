"""Cases that a text can't state: streams that are closed, full or not read, files at the limits of their size, and help."""
import os
import pathlib
import re
import resource
import shutil
import signal
import subprocess

from transcript import differences, run

HERE = pathlib.Path(__file__).resolve().parent
ROOT = HERE.parent


def content_of(path):
    """The bytes of a file, or none where there is no such file."""
    return path.read_bytes() if path.exists() else b""


def pipe_closed_after_a_line(program, folder):
    """Somebody reads the header of a long list, and no more."""
    shutil.copy(ROOT / "bench" / "circuits" / "one_contact.ld", folder)
    words = ["causes", "one_contact.ld", "Y", *(f"I{number}" for number in range(1, 21))]
    with subprocess.Popen([program, *words], cwd=folder, stdin=subprocess.DEVNULL, stdout=subprocess.PIPE, stderr=subprocess.PIPE) as process:
        header = process.stdout.readline()
        process.stdout.close()
        said = process.stderr.read()
    return differences((header, said, process.returncode), ((",".join(["number", *words[3:]]) + "\n").encode(), b"fault X6\n", 1))


def rows_in_a_file_of_limited_size(program, folder):
    """The system ends the program by a signal at the limit; what was written is a prefix of the rows."""
    shutil.copy(ROOT / "bench" / "circuits" / "one_contact.ld", folder)
    words = ["causes", "one_contact.ld", "Y", *(f"I{number}" for number in range(1, 17))]
    whole, _, _ = run(program, words, folder)
    with open(folder / "rows.csv", "wb") as rows:
        _, said, status = run(program, words, folder, stdout=rows, preexec_fn=lambda: resource.setrlimit(resource.RLIMIT_FSIZE, (100000, 100000)))
    written = content_of(folder / "rows.csv")
    return differences((written, said, status), (whole[:100000], b"", -signal.SIGXFSZ))


def help_is_printed(*words):
    return lambda program, folder: differences(run(program, words, folder), (..., b"", 0))


def help_fits(program, folder):
    """Each line of help has at most 80 characters, and each subcommand two examples, that of projects four and that of exports three, whose words are those of a request."""
    for name, text in EXAMPLE_FILES.items():
        (folder / name).write_bytes(text if isinstance(text, bytes) else text.read_bytes())
    wide, counts, statuses = [], [], []
    for name in (None, *OF_PROGRAMS, *WITHOUT_ALIASES):
        lines = run(program, ["help", *([name] if name else [])], folder)[0].decode().splitlines()
        wide += [line for line in lines if len(line) > 80]
        if name:
            shown = [re.split(r"  +| > ", line.strip())[0] for line in lines if line.startswith("  ladder ")]
            counts.append(len(shown) if "Examples:" in lines else None)
            statuses += [(line, status) for line in shown for status in [run(program, line.split()[1:], folder)[2]] if status != 0]
    due = [{"import": 4, "export": 3}.get(name, 2) for name in (*OF_PROGRAMS, *WITHOUT_ALIASES)]
    return differences((wide, counts, statuses), ([], due, []))


def aliases_in_help(program, folder):
    """What prints names of a program has the option, also beside the one for help; a stimulus keeps the names."""
    told = {name: b"      --aliases  " in run(program, [name, "--help"], folder)[0] for name in (*OF_PROGRAMS, *WITHOUT_ALIASES)}
    ends = [run(program, [name, "--aliases", "--help"], folder)[2] for name in (*OF_PROGRAMS, *WITHOUT_ALIASES)]
    return differences(([name for name, has in told.items() if has], ends), (list(OF_PROGRAMS), [0] * len(OF_PROGRAMS) + [2] * len(WITHOUT_ALIASES)))


def full_device():
    return open("/dev/full", "wb")


def unread_pipe():
    """The writing end of a pipe that nobody reads."""
    reader, writer = os.pipe()
    os.close(reader)
    return open(writer, "wb")


def on_a_stream(words, name, opened, want):
    """A case on the motor with one of its streams opened otherwise."""

    def job(program, folder):
        shutil.copy(HERE / "programs" / "motor.ld", folder)
        with opened() as stream:
            return differences(run(program, words, folder, **{name: stream}), want)

    return job


def rows_on_a_closed_output(program, folder):
    shutil.copy(HERE / "programs" / "motor.ld", folder)
    have = run(program, CAUSES, folder, stdout=subprocess.DEVNULL, preexec_fn=lambda: os.close(1))
    return differences(have, (None, b"fault X6\n", 1))


def long_texts(words, name, text, want):
    """A case on the motor with a file that is too large to be kept."""

    def job(program, folder):
        shutil.copy(HERE / "programs" / "motor.ld", folder)
        (folder / name).write_bytes(text)
        return differences(run(program, words, folder), want)

    return job


def sim_with_closed_streams(closed, want, saved):
    """A simulation that saves, with these streams closed at its start: no file may take their place."""

    def close():
        for stream in closed:
            os.close(stream)

    def job(program, folder):
        shutil.copy(HERE / "programs" / "motor.ld", folder)
        (folder / "stimulus.csv").write_bytes(b"moment,Start,Stop\n0,1,0\n")
        have = run(program, ["sim", "--save", "saved.csv", "motor.ld", "stimulus.csv"], folder, preexec_fn=close)
        return differences((*have, content_of(folder / "saved.csv")), (*want, saved))

    return job


def parts_of_32_inputs(program, folder):
    """The lists of two jobs by the tutorial's lines for a Slurm array, where the numbers are of 32 bits."""
    lines = re.search(r"```text\n(first=.*?)```", (ROOT / "docs" / "user" / "tutorial.md").read_text("utf-8"), re.DOTALL)[1]
    chain = (ROOT / "bench" / "circuits" / "chain32.ld").read_text("ascii")
    (folder / "plant.ld").write_text(chain.replace("  Y\n", "Alarm\n").replace("Y AT", "Alarm AT"), "ascii")
    (folder / "ladder").symlink_to(program)
    have = []
    for job in ("1022", "1023"):
        environment = {**os.environ, "PATH": f"{folder}:{os.environ['PATH']}", "SLURM_ARRAY_TASK_ID": job}
        subprocess.run(["sh", "-c", lines], cwd=folder, env=environment, stderr=subprocess.DEVNULL, check=True)
        have.append((folder / f"list_{job}.csv").read_bytes())
    header = "number," + ",".join(f"I{number}" for number in range(1, 33)) + "\n"
    return differences(have, (header.encode(), f"{header}{2 ** 32 - 1}{',1' * 32}\n".encode()))


def program_from_standard_input(program, folder):
    """A file named - is standard input."""
    text = HERE / "programs" / "motor.ld"
    with open(text, "rb") as stream:
        have = run(program, ["causes", "-", *CAUSES[2:]], folder, stdin=stream)
    shutil.copy(text, folder)
    return differences(have, run(program, CAUSES, folder))


def advice_on_standard_input(program, folder):
    """A word that names nothing in such a program is told with the name that is nearest."""
    with open(HERE / "programs" / "motor.ld", "rb") as stream:
        _, said, status = run(program, ["causes", "--why", "-", "Moter"], folder, stdin=stream)
    return differences((said.splitlines()[-1], status), (b"\"Moter\" isn't declared; did you mean Motor?", 1))


def stimulus_from_a_pipe(program, folder):
    """A stimulus may come through a pipe."""
    shutil.copy(HERE / "programs" / "motor.ld", folder)
    reader, writer = os.pipe()
    os.write(writer, ONE)
    os.close(writer)
    with open(reader, "rb") as stream:
        return differences(run(program, ["sim", "motor.ld", "-"], folder, stdin=stream), (TRACE, b"", 0))


OF_PROGRAMS = ("check", "causes", "show", "sim", "uses", "never", "diff", "export")
WITHOUT_ALIASES = ("reach", "import", "explain")
# the files that the examples of help name
PLANT = b"""VAR
  Start AT %IX0 : BOOL;
  Stop AT %IX1 : BOOL;
  Motor AT %QX0 : BOOL;
  Valve AT %QX1 : BOOL;
END_VAR

|   Start       Stop        Motor
|----| |----+----|/|---------( )----
|   Motor   |
|----| |----+

|   Motor       Valve
|----| |---------( )----
"""
EXAMPLE_FILES = {"plant.ld": PLANT, "old.ld": PLANT, "new.ld": PLANT.replace(b"|/|", b"| |"), "day.csv": b"moment,Start,Stop\n0,1,0\n500,0,0\n",
                 "plant.clp": ROOT / "examples/classicladder/coolant.clp", "plant.xml": (HERE / "projects/lamp.xml").read_bytes().replace(b'"lamp"', b'"Plant"'), "plant.hal": b"net start-button => classicladder.0.in-00\n"}
CAUSES = ["causes", "motor.ld", "Motor", "Start", "Stop"]
SIM = ["sim", "motor.ld", "stimulus.csv"]
STATE = ["causes", "--state", "state.csv", "motor.ld", "Motor"]
SAVED = b"version,2\nmoment,0\nvar,Start,1\nvar,Stop,0\nvar,Motor,1\n"
TRACE = b"moment,Motor\n0,1\n"
ONE = b"moment,Start,Stop\n0,1,0\n"
# the program as the stimulus is read, and found bad, behind the trace
EXPECT = ["sim", "--expect", "trace.csv", "motor.ld", "motor.ld"]
EVERY = ["sim", "--every", "1", "motor.ld", "stimulus.csv"]
FILM = ["show", "--stimulus", "stimulus.csv", "motor.ld"]
DRAWN = b"""\
(* at 0 ms: Start=0 Stop=0 *)
(* === live  [ ] closed, or Q is ON  { } ON after its rung  ... passed over *)

|   Start       Stop        Motor
|====| |----+----[/]---------( )----
|   Motor   |
|====| |----+

(* after it: Motor=0 *)

"""
SPECIAL = {
    "sim/stimulus/most-records": long_texts(SIM, "stimulus.csv", b"moment\n" + b"0\n" * 1000000, (b"moment,Motor\n" + b"0,0\n" * 1000000, b"", 0)),
    "sim/stimulus/a-record-too-many": long_texts(SIM, "stimulus.csv", b"moment\n" + b"0\n" * 1000001, (b"moment,Motor\n" + b"0,0\n" * 1000000, b"fault X5 row 1000002\n", 1)),
    "sim/every/more-than-without": long_texts(EVERY, "stimulus.csv", b"moment\n0\n5\n1000005\n", (b"moment,Motor\n" + b"".join(b"%d,0\n" % moment for moment in range(1000006)), b"", 0)),
    "show/film/of-the-most-records": long_texts(FILM, "stimulus.csv", b"moment\n" + b"0\n" * 1000, (DRAWN * 1000, b"", 0)),
    "show/film/a-record-too-many": long_texts(FILM, "stimulus.csv", b"moment\n" + b"0\n" * 1001, (DRAWN * 1000, b"fault X5 row 1002\n", 1)),
    "sim/stimulus/longest": long_texts(SIM, "stimulus.csv", b"moment\n".ljust(16777216, b"\n"), (b"moment,Motor\n", b"", 0)),
    "sim/stimulus/too-long": long_texts(SIM, "stimulus.csv", b"moment\n".ljust(16777217, b"\n"), (b"", b"fault X5 stimulus\n", 1)),
    "sim/expect/longest": long_texts(EXPECT, "trace.csv", b"moment\n".ljust(16777216, b"\n"), (b"", b"fault X2 stimulus row 1\n", 1)),
    "sim/expect/too-long": long_texts(EXPECT, "trace.csv", b"moment\n".ljust(16777217, b"\n"), (b"", b"fault X5 trace\n", 1)),
    "state/of-the-most-bytes": long_texts(STATE, "state.csv", SAVED.ljust(1048576, b"\n"), (b"number\n0\n", b"rows 1 looks 1\n", 0)),
    "state/too-long": long_texts(STATE, "state.csv", SAVED.ljust(1048577, b"\n"), (b"", b"fault X5 state\n", 1)),
    "streams/saved-state-on-a-full-device": long_texts(["sim", "--save", "/dev/full", *SIM[1:]], "stimulus.csv", ONE, (TRACE, b"fault X6\n", 1)),
    "streams/saved-state-in-a-folder": long_texts(["sim", "--save", ".", *SIM[1:]], "stimulus.csv", ONE, (TRACE, b"fault X6\n", 1)),
    "streams/rows-in-a-file-of-limited-size": rows_in_a_file_of_limited_size,
    "streams/rows-on-a-pipe-closed-after-a-line": pipe_closed_after_a_line,
    "streams/saved-state-over-the-program": long_texts(["sim", "--save", "motor.ld", *SIM[1:]], "stimulus.csv", ONE, (b"", b"fault usage\n", 2)),
    "streams/program-from-standard-input": program_from_standard_input,
    "streams/advice-on-standard-input": advice_on_standard_input,
    "streams/stimulus-from-a-pipe": stimulus_from_a_pipe,
    "streams/sim-without-input": sim_with_closed_streams([0], (TRACE, b"", 0), SAVED),
    "streams/sim-without-output": sim_with_closed_streams([1], (b"", b"fault X6\n", 1), b""),
    "streams/sim-without-error": sim_with_closed_streams([2], (TRACE, b"", 0), SAVED),
    "streams/sim-without-streams": sim_with_closed_streams([0, 1, 2], (b"", b"", 1), b""),
    "words/help/show": help_is_printed("show", "--help"),
    "words/help/sim": help_is_printed("sim", "-h"),
    "words/help/uses": help_is_printed("uses", "--help"),
    "words/help/alone": help_is_printed("--help"),
    "words/help/as-a-subcommand": help_is_printed("help"),
    "words/help/causes": help_is_printed("causes", "--help"),
    "words/help/causes-short": help_is_printed("causes", "-h"),
    "streams/help-on-a-full-device": on_a_stream(["--help"], "stdout", full_device, (None, b"fault X6\n", 1)),
    "check/on-a-full-device": on_a_stream(["check", "motor.ld"], "stdout", full_device, (None, b"fault X6\n", 1)),
    "words/help/check": help_is_printed("check", "--help"),
    "words/help/reach": help_is_printed("reach", "--help"),
    "words/help/diff": help_is_printed("diff", "--help"),
    "diff/verdicts-on-a-full-device": on_a_stream(["diff", "motor.ld", "motor.ld"], "stdout", full_device, (None, b"fault X6\n", 1)),
    "diff/on-a-full-device": on_a_stream(["diff", "motor.ld", "motor.ld", "Motor"], "stdout", full_device, (None, b"fault X6\n", 1)),
    "aliases/in-help": aliases_in_help,
    "words/help/lines-and-examples": help_fits,
    "words/help/import": help_is_printed("import", "--help"),
    "causes/upto/parts-of-32-inputs": parts_of_32_inputs,
    "streams/rows-on-a-full-device": on_a_stream(CAUSES, "stdout", full_device, (None, b"fault X6\n", 1)),
    "show/on-a-full-device": on_a_stream(["show", "motor.ld", "Start", "Stop"], "stdout", full_device, (None, b"fault X6\n", 1)),
    "reach/on-a-full-device": on_a_stream(["reach", "motor.ld", "Motor"], "stdout", full_device, (None, b"fault X6\n", 1)),
    "reach/line-on-a-full-device": on_a_stream(["reach", "motor.ld", "Motor"], "stderr", full_device, (b"moment,Start,Stop\n0,1,0\n", None, 1)),
    "streams/rows-on-an-unread-pipe": on_a_stream(CAUSES, "stdout", unread_pipe, (None, b"fault X6\n", 1)),
    "streams/rows-on-a-closed-output": rows_on_a_closed_output,
    "streams/counts-on-a-full-device": on_a_stream(CAUSES, "stderr", full_device, (b"number,Start,Stop\n2,1,0\n", None, 1)),
    "streams/fault-on-a-full-device": on_a_stream(["causes", "motor.ld", "Moter"], "stderr", full_device, (b"", None, 1)),
    "streams/usage-on-a-full-device": on_a_stream(["causes"], "stderr", full_device, (b"", None, 2)),
}
