"""What the scripts here share: calls of the built program, what docs/COMMANDS.md says of every answer, and commands on a module."""
import functools
import glob
import importlib.machinery
import importlib.util
import os
import re
import subprocess
import sys
import tempfile

HERE = os.path.dirname(os.path.abspath(__file__))
sys.dont_write_bytecode = True
sys.path.insert(0, os.path.join(HERE, "..", "bench"))
import modules  # noqa: E402

LOADER = importlib.machinery.SourceFileLoader("runs", os.path.join(HERE, "runs"))
runs = importlib.util.module_from_spec(importlib.util.spec_from_loader("runs", LOADER))
LOADER.exec_module(runs)

PROGRAM = os.environ.get("WASSAIL_PROGRAM", runs.PROGRAM)
WORDS_REFUSED = b"wassail: words refused\n"
LINES = {1: rb"wassail: module refused: [^\n]+\n", 2: re.escape(WORDS_REFUSED), 6: rb"wassail: query refused: [^\n]+\n"}
SLICED = rb"function \d+ instruction \d+\n"
NAME = "a slice of this script"
SECONDS = 900


def is_built(script):
    """Whether the program is there. Where it isn't, a line says so."""
    if os.access(PROGRAM, os.X_OK):
        return True
    print(f"{script}: skipped, since there is no program (rt ci and rt run build it)")
    return False


def asked(module, words, memory=None, more=None, told=None):
    """What the program answers to words (a list) and a module: status, standard output, standard error. A signal is a status below 0.

    `memory` limits its data in KiB, which doesn't count the stack: where the stack can't grow, a signal ends a program. `more` is put into its environment, and
    the file `told` is left open for it."""
    # From a file, since how often a pipe is read varies.
    with tempfile.TemporaryFile() as source:
        source.write(module)
        source.seek(0)
        ran = subprocess.run(
            [*(["sh", "-c", 'ulimit -d "$0" && exec "$@"', str(memory)] if memory else []), PROGRAM, *map(str, words)],
            stdin=source,
            capture_output=True,
            timeout=SECONDS,
            env={**os.environ, **more} if more else None,
            pass_fds=(told,) if told is not None else (),
        )
    return ran.returncode, ran.stdout, ran.stderr


def what_is_wrong(words, answer):
    """What no answer to these words may be by docs/COMMANDS.md, where no read or write failed: none where all is well."""
    status, out, err = answer
    command = words[0] if words else ""
    if status < 0:
        return f"ended by signal {-status}"
    if status in (7, 8) and command in ("run", "trace"):
        return None if out and not err else "an end of a run, and a line on standard error or no text"
    if status not in (0, 1, 2, 5, 6):
        return f"status {status}"
    if status == 0:
        wanted = SLICED if command == "slice" else rb""
        return None if re.fullmatch(wanted, err) else f"an answer, and on standard error {err!r}"
    if out:
        return f"status {status}, and bytes on standard output"
    return None if re.fullmatch(LINES.get(status, rb""), err) else f"status {status}, and on standard error {err!r}"


def processor_time():
    """The seconds of the programs that were run so far. It grows only while they run, whatever else the machine does."""
    times = os.times()
    return times.children_user + times.children_system


@functools.cache
def is_command(*words):
    """Whether the program has this command."""
    return asked(modules.HEADER, words)[0] != 2


def spread(things, count):
    """So many of them, from the first to the last."""
    return sorted({things[i * (len(things) - 1) // max(count - 1, 1)] for i in range(count)}) if things else []


def arguments(module, func):
    """Arguments of a function of a valid module."""
    kinds, _, _ = runs.types_of(module)
    return [runs.ARGUMENTS[0][i % len(runs.ARGUMENTS[0])] for i in range(len(kinds[func][0]))]


def queries(module, func, at, budget=20000):
    """One list of words of each command that the program has, on this function of a valid module and this position of it."""
    values = arguments(module, func)
    asks = [["check"], ["rewrite"], ["list", func], ["kept", func, at], ["slice", func, at, NAME]]
    asks += [["run", func, budget, *values], ["trace", func, at, budget, *values]]
    if is_command("summary"):
        asks += [["summary"], ["summary", func]]
    if is_command("mill", 1):
        asks += [["mill", 3]]
    return asks


def positions(module, func):
    """How many positions a function of a valid module has, and the live ones."""
    lines = [line for line in asked(module, ["list", func])[1].decode().splitlines() if not line.startswith(".")]
    return len(lines), [at for at, line in enumerate(lines) if not line.endswith(" dead")]


def own_functions(module):
    """The numbers of a module's own functions."""
    kinds, imports, _ = runs.types_of(module)
    return list(range(sum(row["kind"] == "func" for row in imports), len(kinds)))


def sliced_functions(module, count, tried=20):
    """At most so many of a valid module's functions of which the program tells kept sets, of so many that are tried."""
    return spread([func for func in spread(own_functions(module), tried) if asked(module, ["kept", func, 0])[0] == 0], count)


def real_modules(folder, folders):
    """Names and bytes of the valid modules that this machine can make, in a folder, and of those in further folders."""
    folders = folders + list(filter(None, os.environ.get("WASSAIL_MODULES", "").split(os.pathsep)))
    found = [path for name in folders for path in sorted(glob.glob(os.path.join(name, "*.wasm")))]
    for path in runs.made_modules(folder) + found:
        with open(path, "rb") as file:
            module = file.read()
        if asked(module, ["check"])[0] == 0:
            yield os.path.basename(path), module
