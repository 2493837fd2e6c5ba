"""Long lists through a program, in as little memory as short ones.

A block of lines goes round and round, with the number of the round in each id. The
program cannot read on where nobody reads its answers, which are compared as they
come, so that no side holds more than a block.
"""

import subprocess
from contextlib import suppress
from itertools import zip_longest
from pathlib import Path
from threading import Thread, Timer

import damage
from cases import Generator
from lists import COMMA, LINE_END, PROGRAM_OF, joined, lines_of
from messages import first_unlike, said_of_lines, shown, written
from moves import check_moved
from promises import Survey
from samples import drawn_line

SEED = 901

BLOCK = 4000  # lines
ROUND = b"ROUND"  # stands in an id for the number of the round, as long as that

# How much more memory a program may have had in the end than after these rounds.
FIRST_ROUNDS = 5
GROWTH_MOST = 1024  # KiB


def block_for(one):
    """Lines and the answers due: good ones and, of ten, one with a drawn change
    behind its id."""
    generator = Generator(SEED)
    lines = []
    for i in range(BLOCK):
        _, rest = drawn_line(one, generator).split(COMMA, 1)
        if i % 10 == 0:
            rest = damage.changed(generator, rest).replace(LINE_END, b"")
        lines.append(b"%s-%d,%s" % (ROUND, i, rest))
    dues = list(map(one.answer_line, lines))
    for line, due in zip(lines, dues):
        check_moved(one, line, due, Survey())
    return joined(lines), joined(dues)


def in_round(block, turn):
    """The block with this number. It makes no line longer, so that each has the
    fault that it has in the block."""
    return block.replace(ROUND, b"%05d" % turn)


def all_lines(block, rounds):
    """The lines after the header, one after the other."""
    for turn in range(rounds):
        yield from lines_of(in_round(block, turn))


def memory_of(process):
    """The most that a process has had in memory so far, in KiB."""
    for line in Path(f"/proc/{process.pid}/status").read_text().splitlines():
        if line.startswith("VmHWM:"):
            return int(line.split()[1])
    raise OSError("the system does not tell how much memory a process has")


class Feeder(Thread):
    """Writes the rounds to a process, and notes its memory after some of them and
    after the last, while the process still waits for more."""

    def __init__(self, process, header, block, rounds):
        super().__init__()
        self.process = process
        self.header = header
        self.block = block
        self.rounds = rounds
        self.memory = []

    def run(self):
        stream = self.process.stdin
        # A program that ends too early is found out by what it has written.
        with suppress(OSError):
            stream.write(self.header + LINE_END)
            for turn in range(self.rounds):
                stream.write(in_round(self.block, turn))
                if turn in (FIRST_ROUNDS, self.rounds - 1):
                    self.memory.append(memory_of(self.process))
        with suppress(OSError):
            stream.close()


def difference(came, due):
    """What stands from the first line on that differs."""
    place = next(i for i, (a, b) in enumerate(zip_longest(came, due)) if a != b)
    start = due.rfind(LINE_END, 0, place) + len(LINE_END)
    return f"came {shown(came[start:][:100])} due {shown(due[start:][:100])}"


def differences(stream, header, block, rounds):
    """What is wrong with what is read, at each round; past the last nothing is due.

    Everything is read in any case, so that the program can end.
    """
    due = header + LINE_END
    for turn in range(rounds + 1):
        came = stream.read(len(due))
        if came != due:
            yield f"before round {turn}: {difference(came, due)}"
        due = in_round(block, turn)
    rest = stream.read()
    if rest != b"":
        yield f"after the last round came {shown(rest)}"


def growth(memory):
    """What is wrong with the memory."""
    if len(memory) != 2:
        yield "its memory could not be noted"
    elif memory[1] - memory[0] > GROWTH_MOST:
        yield f"memory grew from {memory[0]} to {memory[1]} KiB"


def run(command, one, count, limit):
    """What is wrong with a run on a list of so many lines, which is ended after so
    many seconds."""
    block, dues = block_for(one)
    rounds = count // BLOCK
    pipes = dict.fromkeys(("stdin", "stdout", "stderr"), subprocess.PIPE)
    with subprocess.Popen(command, **pipes) as process:
        watch = Timer(limit, process.kill)
        watch.start()
        feeder = Feeder(process, one.header, block, rounds)
        feeder.start()
        header = one.answer_header
        yield from list(differences(process.stdout, header, dues, rounds))[:1]
        # At most a hundred messages and one, which the pipe has held.
        said = process.stderr.read()
        feeder.join()
        status = process.wait()
        watch.cancel()
    if status != 0:
        yield f"ended with status {status}"
    due = written(said_of_lines(PROGRAM_OF[one], one, all_lines(block, rounds)))
    if said != due:
        yield f"says {first_unlike(said, due)}"
    yield from growth(feeder.memory)
