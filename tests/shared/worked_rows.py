"""Test cases: a run of a program, with its input and the required result.

A test case is a file rows/COMMAND/NAME.row. Its first lines, up to a line that begins with '==', say what it is about, or
nothing. Then come its sections, each headed by such a line; what is left out is empty, or status 0:

    == words                words between the command and its input
    == input                its input
    == input escaped        the same, with \\xNN for a byte that no text has
    == input parts          the same, as a JSON list of [text, times]
    == input of NAME        the input of another test case
    == file NAME            a further input, which is a file of this name; the command gets these after its input, in order
    == file NAME parts      the same, as a JSON list of [text, times]
    == stdout               what it must write on standard output
    == stdout pattern       a regular expression for all of that
    == stderr, == stderr pattern      the same for standard error
    == calls                input and standard output in turn: a line '> CALL' is input, all others are output
    == status               the status that it must end with; of several, any one

One file may hold a family of test cases, NAME-V for each value V of a variable X, with V for {X} in all sections:

    == each X: 0..30 64     one test case for each of these words; 0..30 stands for all numbers from 0 to 30
    == each X Y Z           one test case for each line of the section, which has a word for each variable, and the rest for the last

Lines of a section between '{for X: 5..1}' and '{end}' are repeated for each of these words, here those from 5 down to 1.

The test cases in folders driver-COMMAND are those of the program test_driver, all others those of castgroup. The record of each
test case of `run` that is not refused must be good: so there is a test case judge-good-NAME for each, without a file.
"""
import functools
import json
import re
from dataclasses import dataclass

from .running import TOP

ROWS = TOP / "rows"
DRIVER = "driver-"
REPEATED = re.compile(r"^\{for ([A-Z]+): (.+)\}\n((?:.*\n)*?)\{end\}\n", re.MULTILINE)


@dataclass
class Row:
    folder: str
    name: str
    # the text of each section by its heading, with the lines of a '{for X: ..}' once
    sections: dict

    def text(self, heading, absent=""):
        """The text of a section, with the lines of a '{for X: ..}' repeated."""
        return REPEATED.sub(repeated, self.sections.get(heading, absent))

    @property
    def path(self):
        return f"{self.folder}/{self.name}"

    @property
    def command(self):
        return self.folder.removeprefix(DRIVER)

    @property
    def is_of_the_driver(self):
        return self.folder.startswith(DRIVER)

    @property
    def words(self):
        return self.text("words").split()

    @property
    def statuses(self):
        return [int(word) for word in self.text("status", "0").split()]

    @property
    def files(self):
        """The further inputs by name, as bytes."""
        headings = [heading for heading in self.sections if heading.startswith("file ")]
        return {heading.split()[1]: self.file(heading) for heading in headings}

    def file(self, heading):
        return joined(self.sections[heading]) if heading.endswith(" parts") else self.text(heading).encode()

    @property
    def input(self):
        """The whole input, as bytes."""
        said = self.sections
        if "calls" in said:
            lines = self.text("calls").splitlines(keepends=True)
            return "".join(line[2:] for line in lines if line.startswith("> ")).encode()
        if "input parts" in said:
            return joined(said["input parts"])
        if "input escaped" in said:
            text = said["input escaped"].encode()
            return re.sub(rb"\\x([0-9a-f]{2})", lambda found: bytes.fromhex(found[1].decode()), text)
        other = next((heading for heading in said if heading.startswith("input of ")), None)
        return row_named(other.removeprefix("input of ")).input if other else self.text("input").encode()

    def wanted(self, stream):
        """What `stdout` or `stderr` must be: bytes, or a pattern."""
        if f"{stream} pattern" in self.sections:
            return re.compile(self.text(f"{stream} pattern").encode())
        if stream == "stdout" and "calls" in self.sections:
            lines = self.text("calls").splitlines(keepends=True)
            return "".join(line for line in lines if not line.startswith("> ")).encode()
        return self.text(stream).encode()


def joined(parts):
    """The text of a JSON list of [text, times]."""
    return "".join(text * times for text, times in json.loads(parts)).encode()


def is_as(wanted, got):
    """Whether some bytes are what a test case expects."""
    return bool(wanted.fullmatch(got)) if isinstance(wanted, re.Pattern) else wanted == got


def repeated(found):
    """The lines of a '{for X: ..}' for each of its words."""
    variable, words, lines = found.groups()
    return "".join(filled(lines, {variable: value}) for value in values_of(words.split()))


def sections_of(text):
    """The sections of a file by their headings."""
    parts = re.split(r"^== (.+)\n", text, flags=re.MULTILINE)
    return dict(zip(parts[1::2], parts[2::2]))


def values_of(words):
    """Words, with all numbers of a range in place of 0..30, or of 30..0."""
    for word in words:
        ends = re.fullmatch(r"(\d+)\.\.(\d+)", word)
        if ends:
            first, last = int(ends[1]), int(ends[2])
            step = 1 if first <= last else -1
            yield from map(str, range(first, last + step, step))
        else:
            yield word


def members(heading, lines):
    """The values of a family's variables, one test case after another."""
    variables, colon, values = heading.removeprefix("each ").partition(":")
    if colon:
        return [{variables: value} for value in values_of(values.split())]
    names = variables.split()
    return [dict(zip(names, line.split(maxsplit=len(names) - 1))) for line in lines.splitlines()]


def filled(text, values):
    """A text with its variables filled in."""
    return re.sub(r"\{([A-Z]+)\}", lambda found: values.get(found[1], found[0]), text)


def rows_in(path):
    """The test cases in a file."""
    folder, name, sections = path.parent.name, path.stem, sections_of(path.read_text())
    each = next((heading for heading in sections if heading.startswith("each ")), None)
    if each is None:
        return [Row(folder, name, sections)]
    family = members(each, sections.pop(each))
    return [
        Row(folder, f"{name}-{next(iter(of.values()))}", {filled(head, of): filled(text, of) for head, text in sections.items()})
        for of in family
    ]


@functools.cache
def rows_of(folder="*"):
    """The test cases of a folder, or all of them."""
    found = [row for path in sorted(ROWS.glob("*/*.row")) for row in rows_in(path)]
    judged = [
        Row("judge", f"judge-good-{row.name}", {"input": row.text("stdout"), "stdout": "good\n"})
        for row in found
        if row.folder == "run" and row.statuses == [0]
    ]
    return [row for row in found + judged if folder in ("*", row.folder)]


def row_named(name):
    """The test case with this name, or None. One of the driver is named with its folder, as driver-parts/small-parts."""
    return next((row for row in rows_of() if name == (row.path if row.is_of_the_driver else row.name)), None)


def scripts_that_run():
    """The test cases of `run` that are not refused."""
    return [row for row in rows_of("run") if row.statuses == [0]]
