"""How tests are called, run a program and refuse it memory and threads, read the summary of a group in threads, and report
their counts."""
import os
import re
import resource
import subprocess
import sys
from pathlib import Path

HERE = Path(__file__).resolve().parent
TOP = HERE.parent.parent
# Each allocation of a program is refused in turn, up to this one: the programs that are run so make some hundreds.
MOST_ALLOCATIONS = 5000
# After this many runs in succession without a refusal, the last allocation is passed.
PAST_THE_LAST = 50
# With this many KiB of address space, each group that is run so has all that it needs.
AMPLE_SPACE = 1_000_000
NODE_LINE = re.compile(r"node (\d+) (stopped|crashed|turnlimit|logfull|clockfull)((?: \d+)+)")


def end(usage, why):
    """Ends a test that lacks what it needs, with its usage and status 2."""
    print(f"{usage}\n{why}", file=sys.stderr)
    sys.exit(2)


def program(usage, path):
    """The absolute path of a program, which must exist."""
    if not Path(path).is_file():
        end(usage, f"there is no program {path}")
    return str(Path(path).resolve())


def words(usage, least=1, most=1):
    """The words after the test's name, within these bounds on their number. The first names a program; its absolute path is
    returned."""
    if len(sys.argv) <= least:
        end(usage, "a word is missing")
    if len(sys.argv) - 1 > most:
        end(usage, f"{sys.argv[most + 1]} is a word too many")
    return [program(usage, sys.argv[1]), *sys.argv[2:]]


def numbers(usage, words, defaults):
    """The numbers in words, with defaults for missing ones."""
    odd = [word for word in words if not word.isdecimal()]
    if odd:
        end(usage, f"{odd[0]} is no number")
    return [int(word) for word in words] + defaults[len(words):]


def run(command, seconds, variables={}, space=None, **options):
    """Status, output and standard error of a program, in this many KiB of address space. One that runs longer has no status,
    and its error text says so."""
    options = {"stdout": subprocess.PIPE, "stderr": subprocess.PIPE} | options
    if space:
        options["preexec_fn"] = lambda: resource.setrlimit(resource.RLIMIT_AS, (space * 1024, space * 1024))
    if "input" not in options:
        options.setdefault("stdin", subprocess.DEVNULL)
    try:
        done = subprocess.run(command, timeout=seconds, env=os.environ | variables, **options)
    except subprocess.TimeoutExpired:
        late = f"no end in {seconds} s"
        return (None, "", late) if options.get("text") else (None, b"", late.encode())
    return done.returncode, done.stdout, done.stderr


def refusing(folder):
    """Compiles the library that refuses allocations and threads (refuse.c) in the folder: a path for LD_PRELOAD."""
    made = f"{folder}/refuse.so"
    subprocess.run(["gcc", "-shared", "-fPIC", "-O1", "-o", made, HERE / "refuse.c", "-ldl"], check=True)
    return made


def allocations_of(run, library, folder):
    """How many allocations a run without refusals makes. `run` takes variables."""
    count = Path(folder) / "allocations"
    run(LD_PRELOAD=library, COUNT_ALLOCATIONS=str(count))
    return int.from_bytes(count.read_bytes(), sys.byteorder)


def each_refused(run, library, is_quiet, least=0):
    """The outcomes of runs with allocation 1, 2, 3 .. refused, each with its number, up to the last allocation and at least
    this many, or up to a run that does not end. `run` takes variables, and returns a status first. `is_quiet` says whether an
    outcome shows no refusal."""
    quiet = 0
    for number in range(1, MOST_ALLOCATIONS + 1):
        outcome = run(LD_PRELOAD=library, REFUSE_NTH=str(number))
        yield number, outcome
        quiet = quiet + 1 if is_quiet(outcome) else 0
        if outcome[0] is None or quiet >= PAST_THE_LAST and number >= least:
            return
    sys.exit(f"{MOST_ALLOCATIONS} runs, and none past the last allocation")


def least_space(begins):
    """The least address space in which a program begins, in KiB, in steps of a hundred. `begins` says whether it does in a
    given space."""
    return next((space for space in range(1000, AMPLE_SPACE, 100) if begins(space)), AMPLE_SPACE)


def spaces_from(least):
    """Address spaces from this one to an ample one, in KiB, in steps of a tenth."""
    while least < AMPLE_SPACE:
        yield least
        least += least // 10


def read_summary(out, nodes):
    """How each node ended, how many items it delivered from each, and the lines of rest and verdict. None if a node's line is
    missing or malformed."""
    *told, rest, verdict, end = ["", ""] + out.decode().split("\n")
    read = [NODE_LINE.fullmatch(line) for line in told[2:]]
    if end or not all(read) or [int(found[1]) for found in read] != list(range(nodes)):
        return None
    counts = [[int(word) for word in found[3].split()] for found in read]
    if any(len(line) != nodes for line in counts):
        return None
    return [found[2] for found in read], counts, rest, verdict


def told(passed, failed):
    """Prints the last line of a test, its counts, and returns its status. If nothing was tried, that is a failure."""
    if passed + failed == 0:
        print("nothing was tried")
        failed = 1
    print(f"{passed} passed, {failed} failed")
    return 1 if failed else 0
