"""Compares the built program with a second reading of the rules, over random texts: compare.py [COUNT [SEED]]

    runs      scripts of variables, operators and loops, each cut at bounds of steps at random: output, status, place and steps
    texts     texts near the grammar: the place at which no token fits or the grammar fails, or the marker of what is left out
    scripts   scripts of declarations, labels and functions: the place of the first early error

COUNT (200 if left out) is how many of each are made, and SEED (1) what they are made from. What differs is printed, and the status
is then 1.
"""

import pathlib
import random
import subprocess
import sys
import tempfile

from declarations import Scripts
from early_errors import first_error
from evaluation import Run
from grammar import judgement
from programs import Programs
from texts import Texts

PROGRAM = pathlib.Path(__file__).resolve().parents[2] / "crates" / "shadowrealm" / "out" / "shadowrealm"
# The steps of a run that is not cut short, and the code units of a text that the recognizer, which is slow, gets at most.
MOST_STEPS, MOST_UNITS = 5000, 250


class Folder:
    """The folder in which the program runs."""

    def __init__(self, path):
        self.file = pathlib.Path(path) / "a.js"

    def answer(self, text, *words):
        """Runs the program on a text; returns its status, its output and its error line."""
        self.file.write_bytes(text.encode("utf-8", "surrogatepass"))
        ran = subprocess.run([PROGRAM, *words, "a.js"], cwd=self.file.parent, capture_output=True, check=False)
        return ran.returncode, ran.stdout, ran.stderr.decode()


def units_of(text):
    """The code units of a text, as a text of them."""
    units = text.encode("utf-16-le", "surrogatepass")
    return "".join(chr(low | high << 8) for low, high in zip(units[::2], units[1::2]))


def bytes_of(line):
    """A line of code units as it is printed."""
    return f"{line}\n".encode("utf-16-le", "surrogatepass").decode("utf-16-le", "replace").encode()


def compared_runs(folder, numbers):
    """A program, at its end and at two bounds before it: what was wanted and what came."""
    text, statements = Programs(numbers).program()
    whole = Run(MOST_STEPS)
    whole.ending(len(units_of(text)), statements)
    for bound in (MOST_STEPS, *[numbers.randint(1, whole.used + 2) for _ in range(2)]):
        run = Run(bound)
        status, error = run.ending(len(units_of(text)), statements)
        wanted = status, b"".join(map(bytes_of, run.lines)), error
        yield f"--steps {bound} {text!r}", wanted, folder.answer(text, "--steps", str(bound))


def ended_as_a_script(answer):
    """Whether an answer can be that of a script without an early error, of whatever form."""
    status, _, error = answer
    return status in (0, 3, 4, 9) and "SyntaxError" not in error and "unsupported" not in error


def compared_texts(folder, numbers):
    text = Texts(numbers).text()
    if len(text) > MOST_UNITS:
        return
    failed, answer = judgement(units_of(text)), folder.answer(text)
    if failed:
        status, error = failed
        yield repr(text), (status, b"", error), answer
    else:
        # a script by the grammar, which may have early errors and marked tokens
        yield repr(text), True, answer[0] in (0, 1, 3, 4, 9) or answer


def compared_scripts(folder, numbers):
    text, items = Scripts(numbers).script()
    at, answer = first_error(items), folder.answer(text)
    if at is not None:
        yield repr(text), (1, b"", f"uncaught a.js: SyntaxError: syntax error at {at}\n"), answer
    else:
        yield repr(text), True, ended_as_a_script(answer) or answer


def main(count=200, seed=1):
    sys.setrecursionlimit(10_000)
    kinds = {"runs": compared_runs, "texts": compared_texts, "scripts": compared_scripts}
    passed = failed = 0
    with tempfile.TemporaryDirectory() as path:
        for kind, compared in kinds.items():
            for number in range(int(count)):
                numbers = random.Random(f"{kind} {seed} {number}")
                for text, wanted, came in compared(Folder(path), numbers):
                    passed, failed = passed + (came == wanted), failed + (came != wanted)
                    if came != wanted:
                        print(f"{kind} {number}: {text}\n  wanted {wanted}\n  came   {came}")
    print("tests/reference: random texts over the built program, compared with a second reading of the rules")
    print(f"{passed} passed, {failed} failed")
    return 1 if failed else 0


if __name__ == "__main__":
    sys.exit(main(*sys.argv[1:]))
