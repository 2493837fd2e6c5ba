"""Runs a built `launchlist` or `benchlist` on whole inputs and compares what it
writes with what is due.

    python3 second/runs.py COMMAND [ARGUMENT ..]

The last word is the program, and its file name says which of the two it is.
Prints a line for each failure and, last, how many passed and failed. The programs
end with 0 whatever happened, so that 0 only means they ended by themselves.
"""

import sys

# A test run leaves nothing behind in the folder.
sys.dont_write_bytecode = True

import os
import pty
import signal
import subprocess
import time
import tty
from concurrent.futures import ThreadPoolExecutor
from contextlib import contextmanager, suppress
from functools import lru_cache
from itertools import chain, zip_longest
from pathlib import Path
from tempfile import TemporaryFile
from threading import Event, Timer

from damage import CR
from expected import EXAMPLES, example_list
from inputs import (
    AT_ONCE,
    example,
    ill_formed_inputs,
    long_answers,
    said_inputs,
    whole_inputs,
)
from launchlist_cases import stdin
from lists import LINE_END, PROGRAMS, answer
from messages import COUNTED, first_unlike, said, shown

USAGE = """\
usage: python3 second/runs.py COMMAND [ARGUMENT ..]
The last word is a built launchlist or benchlist.
"""

LIMIT = 60  # seconds after which a run that has not ended is ended

# Seconds between two pieces of input, so that the program meets them singly.
PAUSE = 0.0005

FULL_DEVICE = Path("/dev/full")


class Failed(Exception):
    """What is wrong with a run."""


def pieces(data, size):
    return [data[i : i + size] for i in range(0, len(data), size)]


def cut_after(data, mark):
    """Pieces that end with the mark, but for the last."""
    *parts, last = data.split(mark)
    return [*(part + mark for part in parts), last]


def feed(stream, parts, pause):
    """Writes the parts one by one and ends the input."""
    # At a wrong header the program may stop before it has read everything.
    with suppress(BrokenPipeError):
        for part in parts:
            stream.write(part)
            stream.flush()
            time.sleep(pause)
    with suppress(BrokenPipeError):
        stream.close()


def run(command, parts=(), pause=0, **streams):
    """The status, standard output and standard error of one run."""
    with TemporaryFile() as out, TemporaryFile() as err:
        given = {"stdin": subprocess.PIPE, "stdout": out, "stderr": err, **streams}
        process = subprocess.Popen(command, **given)
        late = Event()

        def stop():
            late.set()
            process.kill()

        watch = Timer(LIMIT, stop)
        watch.start()
        try:
            if process.stdin is not None:
                feed(process.stdin, parts, pause)
            status = process.wait()
        finally:
            watch.cancel()
        if late.is_set():
            raise Failed(f"has not ended within {LIMIT} s")
        out.seek(0)
        err.seek(0)
        return status, out.read(), err.read()


def drained(end):
    """All that comes from a terminal until nothing is left at its other end."""
    came = []
    # The system tells by an error that nothing is.
    with suppress(OSError):
        while piece := os.read(end, AT_ONCE):
            came.append(piece)
    return b"".join(came)


def run_on_terminal(command, data, stream, **streams):
    """A run with this stream, standard output or error, on a terminal that changes
    no byte; and what came there."""
    ours, theirs = pty.openpty()
    try:
        tty.setraw(theirs)
        streams[stream] = theirs
        with ThreadPoolExecutor(1) as reader:
            came = reader.submit(drained, ours)
            try:
                ended = run(command, pieces(data, AT_ONCE), **streams)
            finally:
                os.close(theirs)
        return ended, came.result()
    finally:
        os.close(ours)


def must_have_ended(status):
    if status != 0:
        raise Failed(f"ended with status {status}")


def must_be_silent(what, data):
    if data != b"":
        raise Failed(f"{what} holds {shown(data)}")


def must_be(found, due):
    if found == due:
        return
    lines = zip_longest(found.split(LINE_END), due.split(LINE_END))
    for number, (in_found, in_due) in enumerate(lines, 1):
        if in_found != in_due:
            raise Failed(f"line {number} is {shown(in_found)}, due {shown(in_due)}")


def written(status, out, err):
    """What a run without fault has written, and not on standard error."""
    must_have_ended(status)
    must_be_silent("standard error", err)
    return out


def program_of(command):
    """The name of the program that the command runs."""
    return Path(command[-1]).name


def must_answer(command, data, status, out, err, terminal=False):
    """The answer due to the data on standard output, on standard error what is to
    be said of it, on a terminal or not."""
    program = program_of(command)
    must_have_ended(status)
    must_be(out, answer(program, data))
    due = said(program, data, terminal)
    if err != due:
        raise Failed(f"standard error holds {first_unlike(err, due)}")


def check_list(command, data, parts, pause=0):
    """A list through a pipe, in these parts."""
    must_answer(command, data, *run(command, parts, pause))


@contextmanager
def file_of(data):
    """A file of these bytes, open for reading."""
    with TemporaryFile() as file:
        file.write(data)
        file.seek(0)
        yield file


def check_file(command, data):
    """A list from a file."""
    with file_of(data) as file:
        must_answer(command, data, *run(command, stdin=file))


def check_terminal(command, data):
    """A list with standard error on a terminal: the lines are counted."""
    (status, out, _), err = run_on_terminal(command, data, "stderr")
    must_answer(command, data, status, out, err, terminal=True)


def check_answers_on_terminal(command, data):
    """A list with standard output alone on a terminal: they are not."""
    (status, _, err), out = run_on_terminal(command, data, "stdout")
    must_answer(command, data, status, out, err)


@lru_cache(maxsize=None)
def help_page(command):
    """What --help prints, with no input."""
    page = written(*run([*command, "--help"], stdin=subprocess.DEVNULL))
    if program_of(command).encode("ascii") not in page.split(b"\n")[0]:
        raise Failed(f"the page begins {shown(page)}")
    return page


def check_help_open(command):
    """--help where the input stays open: the program is not to wait for it."""
    reader, writer = os.pipe()
    try:
        page = written(*run([*command, "--help"], stdin=reader))
    finally:
        os.close(reader)
        os.close(writer)
    must_be(page, help_page(command))


def check_refused(command, arguments):
    """Arguments that are not taken: the page on standard error, no answers."""
    page = help_page(command)
    first = PROGRAMS[program_of(command)][0]
    status, out, err = run([*command, *arguments], [example(first)])
    must_have_ended(status)
    must_be_silent("standard output", out)
    if page not in err:
        raise Failed(f"the page is not on standard error, but {shown(err)}")


def must_complain(status, err):
    must_have_ended(status)
    if err == b"":
        raise Failed("standard error holds nothing")


def check_full(command, data):
    """Standard output on a device that takes nothing."""
    with open(FULL_DEVICE, "wb") as device:
        status, _, err = run(command, pieces(data, AT_ONCE), stdout=device)
    must_complain(status, err)


def must_not_count(err):
    if COUNTED.encode("ascii") in err:
        raise Failed(f"standard error holds {shown(err)}")


def check_full_terminal(command, data):
    """The same with standard error on a terminal: no lines are counted."""
    with open(FULL_DEVICE, "wb") as device:
        ended, err = run_on_terminal(command, data, "stderr", stdout=device)
    must_complain(ended[0], err)
    must_not_count(err)


@contextmanager
def directory():
    """A directory, which can be opened and not read."""
    end = os.open("/", os.O_RDONLY)
    try:
        yield end
    finally:
        os.close(end)


def must_have_stopped(status, out, err):
    """What is due where nothing could be read."""
    must_complain(status, err)
    must_be_silent("standard output", out)


def check_directory(command):
    """A directory as standard input."""
    with directory() as end:
        must_have_stopped(*run(command, stdin=end))


def check_directory_terminal(command):
    """The same with standard error on a terminal: no lines are counted."""
    with directory() as end:
        (status, out, _), err = run_on_terminal(command, b"", "stderr", stdin=end)
    must_have_stopped(status, out, err)
    must_not_count(err)


@contextmanager
def unread():
    """A pipe that nobody reads any more."""
    reader, writer = os.pipe()
    os.close(reader)
    try:
        yield writer
    finally:
        os.close(writer)


def run_unread(command, data, **signals):
    """A run whose standard output is such a pipe."""
    with unread() as writer:
        return run(command, pieces(data, AT_ONCE), stdout=writer, **signals)


def check_unread(command, data):
    """With the signal for that ignored, so that the write itself fails."""
    status, _, err = run_unread(command, data, restore_signals=False)
    must_complain(status, err)


def check_signalled(command, data):
    """With the signal as usual, which may end the program: that it ends."""
    run_unread(command, data)


def run_unheard(command, data, **signals):
    """A run on a list from a file, its standard error such a pipe; and the answers
    due."""
    with unread() as writer, file_of(data) as file:
        status, out, _ = run(command, stdin=file, stderr=writer, **signals)
    return status, out, answer(program_of(command), data)


def check_unheard(command, data):
    """With the signal ignored: all answers come."""
    status, out, due = run_unheard(command, data, restore_signals=False)
    must_have_ended(status)
    must_be(out, due)


def first_said(program, data):
    """The number of the first line of which something is said."""
    _, number, *_ = said(program, data).split(b": ", 2)
    return int(number.removeprefix(b"line "))


def must_have_lines(out, count):
    if out.count(LINE_END) < count:
        raise Failed(f"{out.count(LINE_END)} lines came, due {count} or more")


def at_once(data, due):
    """Whether a list comes in one read and its answers go in one write: a last line
    without CRLF is answered later."""
    return data.endswith(LINE_END) and max(len(data), len(due)) <= AT_ONCE


def check_unheard_signalled(command, data):
    """With the signal as usual, which may end the program at its first message: what
    it is about is answered before, and so is all that was read with it."""
    status, out, due = run_unheard(command, data)
    if status != -signal.SIGPIPE:
        must_have_ended(status)
    elif not at_once(data, due):
        must_have_lines(out, first_said(program_of(command), data))
        due = due[: len(out)]
    must_be(out, due)


def run_with_status(command, parts=(), **streams):
    """A run with its descriptor 3 on a pipe, and what came there."""
    reader, writer = os.pipe()
    shell = ("sh", "-c", f'exec "$@" 3>/dev/fd/{writer}', "sh")
    with open(reader, "rb") as came:
        with open(writer, "wb"):
            ended = run([*shell, *command], parts, pass_fds=(writer,), **streams)
        return ended, came.read()


def must_be_status(came, due):
    if came != due:
        raise Failed(f"on descriptor 3 comes {shown(came)}, due {shown(due)}")


def check_status(command, data, due):
    """A list by --status: all as without it, and this status."""
    asked = [*command, "--status"]
    ended, came = run_with_status(asked, pieces(data, AT_ONCE))
    must_answer(command, data, *ended)
    must_be_status(came, due)


def check_status_full(command, data):
    """The same where the answers go to a full device."""
    asked = [*command, "--status"]
    with open(FULL_DEVICE, "wb") as device:
        parts = pieces(data, AT_ONCE)
        (status, _, err), came = run_with_status(asked, parts, stdout=device)
    must_complain(status, err)
    must_be_status(came, b"1")


def check_status_directory(command):
    """The same with a directory as standard input."""
    with directory() as end:
        ended, came = run_with_status([*command, "--status"], stdin=end)
    must_have_stopped(*ended)
    must_be_status(came, b"1")


def check_no_status(command, data):
    """Without --status nothing comes on descriptor 3."""
    ended, came = run_with_status(command, pieces(data, AT_ONCE))
    must_answer(command, data, *ended)
    must_be_status(came, b"")


BYTE_BY_BYTE = (
    "empty",
    "header without CRLF",
    "header, CR",
    "wrong header: trailing space",
    "wrong header: 201 letters",
    "example",
    "example without last CRLF",
    "example, last CR",
    "empty rows about a good one",
    "rows joined by LF",
    "CR before CRLF",
    "line of 200 bytes, then good",
    "last line of 201 bytes without CRLF",
    "ill-formed lines, good ones between",
    "line long, without CRLF",
    "line short of a field, without CRLF",
    "line of a field more, without CRLF",
    "line with an empty field, without CRLF",
)

IN_PIECES = (
    ("4097 bytes", 1),
    ("CRLF cut at byte 4096", 7),
    ("65537 bytes", 199),
    ("big list", 4095),
)

# Inputs of which something may be said are fed slowly too: such small ones byte by
# byte, the others by so many.
SMALL = 5000
FEW = 7

ON_TERMINAL = (
    "empty",
    "header",
    "header without CRLF",
    "header, LF",
    "wrong header: trailing space",
    "example",
    "example without last CRLF",
    "example, LF at the end",
    "empty rows about a good one",
    "rows joined by LF",
    "100 lines joined by LF",
    "300 lines joined by LF",
    "refused lines",
    "51 refused lines, 50 joined by LF",
    "ill-formed lines, good ones between",
    "big list with faults",
)

# Run with standard error on a pipe that nobody reads any more.
UNHEARD = (
    "300 lines joined by LF",
    "51 refused lines, 50 joined by LF",
    "100 lines joined by LF, one without CRLF",
    "101 ill-formed lines",
    "long answers, empty lines",
    "big list with faults",
)

# Run by --status, and the status due.
STATUS = {
    "example": b"0",
    "example without last CRLF": b"0",
    "header": b"0",
    "header without CRLF": b"0",
    "refused lines": b"0",
    "rows joined by LF": b"0",
    "101 ill-formed lines": b"0",
    "51 refused lines, 50 joined by LF": b"0",
    "big list with faults": b"0",
    "empty": b"1",
    "CRLF only": b"1",
    "lines ended by LF": b"1",
    "wrong header: trailing space": b"1",
    "wrong header: 70000 letters": b"1",
}

TOO_MANY = (
    ("list.csv",),
    ("-h",),
    ("--helpless",),
    ("--HELP",),
    ("",),
    ("list.csv", "answers.csv"),
    ("--help", "extra"),
    ("--help", "--help"),
    ("extra", "--help"),
)


@lru_cache(maxsize=None)
def inputs_of(one):
    return dict(whole_inputs(one))


def list_checks(one):
    """Name, check and its arguments of each run on a list."""
    inputs = inputs_of(one)
    for name, data in inputs.items():
        yield name, check_list, data, pieces(data, AT_ONCE)
    for name in ("example", *dict(long_answers(one))):
        yield f"{name} from a file", check_file, inputs[name]
    for name in ON_TERMINAL:
        yield f"{name}, on a terminal", check_terminal, inputs[name]
    name, data = "refused lines", inputs["refused lines"]
    yield f"{name}, answers on a terminal", check_answers_on_terminal, data
    for name in ("example", "big list"):
        if FULL_DEVICE.is_char_device():
            full = f"{name}, full device, on a terminal"
            yield full, check_full_terminal, inputs[name]


def status_checks(one):
    """The same of the runs that tell their status."""
    inputs = inputs_of(one)
    for name, due in STATUS.items():
        yield f"{name}, status", check_status, inputs[name], due
    yield "refused lines, no status", check_no_status, inputs["refused lines"]
    for name in ("header", "example", "big list"):
        if FULL_DEVICE.is_char_device():
            yield f"{name}, full device, status", check_status_full, inputs[name]


def unheard_checks(one):
    """The same of the runs whose standard error nobody reads."""
    for name in UNHEARD:
        data = inputs_of(one)[name]
        yield f"{name}, unheard", check_unheard, data
        yield f"{name}, unheard, signalled", check_unheard_signalled, data


def slow_checks(one):
    """The same of the runs on a list in small pieces."""
    inputs = inputs_of(one)
    for name in BYTE_BY_BYTE:
        slow = pieces(inputs[name], 1)
        yield f"{name}, byte by byte", check_list, inputs[name], slow, PAUSE
    for name, size in IN_PIECES:
        slow = pieces(inputs[name], size)
        yield f"{name}, by {size} bytes", check_list, inputs[name], slow, PAUSE
    for name in ("4097 bytes", "rows joined by CR", "CR before CRLF"):
        slow = cut_after(inputs[name], CR)
        yield f"{name}, cut after each CR", check_list, inputs[name], slow, PAUSE
    for name, data in said_inputs(one):
        size = 1 if len(data) < SMALL else FEW
        slow = pieces(data, size)
        yield f"{name}, by {size} bytes", check_list, data, slow, PAUSE
    for name, data in ill_formed_inputs(one):
        slow = pieces(data, FEW)
        yield f"{name}, by {FEW} bytes", check_list, data, slow, PAUSE


def launchlist_checks():
    """The same of the runs on the list of `launchlist` with every damage in it."""
    every = stdin()
    yield "all lines", check_list, every, pieces(every, AT_ONCE)
    yield "all lines from a file", check_file, every
    for size in (199, 4095):
        slow = pieces(every, size)
        yield f"all lines, by {size} bytes", check_list, every, slow, PAUSE


def example_checks(program):
    """The same of the runs on the example lists."""
    for name in EXAMPLES:
        if EXAMPLES[name] == program:
            data = example_list(name)
            yield f"examples/{name}.csv", check_list, data, pieces(data, AT_ONCE)
            slow = pieces(data, FEW)
            yield f"examples/{name}.csv, slowly", check_list, data, slow, PAUSE


def all_list_checks(command):
    for one in PROGRAMS[program_of(command)]:
        checks = chain(list_checks(one), status_checks(one), slow_checks(one))
        for name, *check in checks:
            yield f"{one.name}, {name}", *check
    yield from example_checks(program_of(command))
    if program_of(command) == "launchlist":
        yield from launchlist_checks()


def other_checks(command):
    """The same of the other runs."""
    yield "--help", help_page
    yield "--help with the input open", check_help_open
    for arguments in TOO_MANY:
        yield f"arguments {arguments}", check_refused, arguments
    yield "a directory", check_directory
    yield "a directory, on a terminal", check_directory_terminal
    yield "a directory, status", check_status_directory
    first, *_ = known = PROGRAMS[program_of(command)]
    for name in ("example", "big list"):
        data = inputs_of(first)[name]
        if FULL_DEVICE.is_char_device():
            yield f"{name}, full device", check_full, data
        yield f"{name}, output not read", check_unread, data
        yield f"{name}, output not read, signalled", check_signalled, data
    for one in known:
        for name, *check in unheard_checks(one):
            yield f"{one.name}, {name}", *check


def failure(command, name, check, *arguments):
    """None where the check passes, else what is wrong."""
    try:
        check(command, *arguments)
    except Failed as failed:
        return f"{name}: {failed}"
    return None


def failures(command):
    """What each run gives, as above."""
    # Several at a time, for the slow ones mostly wait.
    with ThreadPoolExecutor(4) as pool:
        checks = all_list_checks(command)
        for case in [pool.submit(failure, command, *check) for check in checks]:
            yield case.result()
    # One at a time: a program being started could hold a pipe of another open.
    for check in other_checks(command):
        yield failure(command, *check)


def main(command):
    if command == () or program_of(command) not in PROGRAMS:
        sys.stderr.write(USAGE)
        return 2
    passed = failed = 0
    try:
        for wrong in failures(command):
            if wrong is None:
                passed += 1
            else:
                failed += 1
                print(wrong, flush=True)
    except OSError as error:
        print(f"runs: cannot be started: {error}")
        failed += 1
    print(f"runs: {passed} passed, {failed} failed")
    return 0 if failed == 0 else 1


if __name__ == "__main__":
    sys.exit(main(tuple(sys.argv[1:])))
