"""What the scripts share that count cases: the counting, calls of a program, stored inputs, and the seeds and arrivals of runs that can
be worked out apart from the program."""
import os
import subprocess
import sys

TOP = os.path.dirname(os.path.dirname(os.path.realpath(__file__)))
MODULUS = 2147483647


class Judge:
    """Counts what is as it must be. Before the name of what isn't it says `front`."""

    def __init__(self, front=""):
        self.front, self.passed, self.failed = front, 0, 0

    def see(self, name, holds, found=""):
        """Counts a case; one that fails is told by its name, and by what was found."""
        if holds:
            self.passed += 1
        else:
            self.failed += 1
            print(f"FAILED {self.front}{name}{': ' if found else ''}{found}")

    def see_all(self, cases):
        """Counts cases, each a name and whether it is so."""
        for name, holds in cases:
            self.see(name, holds)

    def end(self):
        """Prints the line that counts, which is a script's last one, and ends with its status."""
        print(f"{self.passed} passed, {self.failed} failed")
        sys.exit(self.failed > 0)


def programs(usage, most=None):
    """The programs that the script's words name, as many as the usage does: .ci/NAME PROGRAM.. Ends with 2 for other words, and with
    70 where a program isn't built."""
    wanted = usage.split()[1:]
    given = sys.argv[1:]
    if not len(wanted) <= len(given) <= (most or len(wanted)):
        print(f"usage: {usage}", file=sys.stderr)
        sys.exit(2)
    for path in given[: len(wanted)]:
        if not os.path.isfile(path) or not os.access(path, os.X_OK):
            print(f"{usage.split()[0]}: there is no program {path}", file=sys.stderr)
            sys.exit(70)
    return [os.path.abspath(path) for path in given[: len(wanted)]]


def run(program, words=(), given=b""):
    """What a program writes, and its status."""
    given = given if isinstance(given, bytes) else given.encode()
    ran = subprocess.run([program, *map(str, words)], input=given, capture_output=True, check=False)
    return ran.stdout, ran.returncode


def is_usage(told, status):
    """Whether that is what `planner` answers to wrong words."""
    return status == 2 and told.startswith(b"usage: planner ")


def read(path):
    """The bytes of a file."""
    with open(path, "rb") as file:
        return file.read()


def text_of(path):
    with open(path, encoding="utf-8") as file:
        return file.read()


def stored_input(name):
    """A stored input: NAME.gps, or the bytes that the lines of NAME.hex spell; behind # such a line has a comment."""
    if os.path.exists(f"{name}.hex"):
        return bytes.fromhex("".join(line.split("#")[0] for line in text_of(f"{name}.hex").split("\n")))
    if not os.path.exists(f"{name}.gps"):
        print(f"there is no {name}.gps and no {name}.hex", file=sys.stderr)
        sys.exit(3)
    return read(f"{name}.gps")


def stored_words(name):
    """The words that follow the command: those of NAME.words, if it is there."""
    return text_of(f"{name}.words").split() if os.path.exists(f"{name}.words") else []


def seed(place):
    """The seed at a place: the generator's number after so many times 131,071 draws from 1."""
    return pow(48271, 131071 * place, MODULUS)


def arrivals(run_number, count, mean=10):
    """The clock of the last of so many arrivals every mean - 5 to mean + 5 units, by stream 1 of a run."""
    x, clock = seed(16 * run_number), 0
    for _ in range(count):
        x = 48271 * x % MODULUS
        clock += mean - 5 + x % 11
    return clock
