#!/usr/bin/env python3
"""decks.py PROGRAM FILE..: runs the program on each case of the files, and looks at the bytes that it writes and at its status.
It writes nothing on standard error.

A file has templates and cases. An empty line, or one that begins with '#', says nothing. A template is

    template NAME      and behind it its lines, each as '< LINE', which may have a '%'

and a case is

    == WHAT IT SHOWS   its name, and behind it some of these lines:
    $ WORD WORD ..     the words of the program, parted by single spaces ('$' alone: none; '""': an empty word)
    < LINE             a line of the text that it reads
    @NAME TEXT         the text that it reads is the template NAME, with TEXT in place of each '%'
    > LINE             a line that it writes
    >@NAME TEXT        it writes the template NAME, with TEXT in place of each '%'
    same               it writes the text that it read
    ! STATUS           the status that it ends with, 0 where there is no such line
    refused L C CAUSE  for 'run', 'check' and 'graph' alike it writes '-REFUS- L C CAUSE.' and ends with status 2

In a line, '\\xHH' is the byte HH, '\\t', '\\r' and '\\n' a tab, a carriage return and a line feed, and a '\\' at the end says that
no line feed follows. '{N*PIECE|SIGN}' is N times PIECE with SIGN between two of them, and '{N*PIECE}' without. '{M..N*PIECE|SIGN}'
is PIECE for each number from M to N, which stands for '~' in it, and the next number for '^'.

Lines of devices:

    input fails        each read fails (standard input is /proc/self/mem)
    input breaks       the bytes can be read, and a read behind them fails (standard input is a connection that was reset)
    input unread       nothing was read
    output full        each write fails (standard output is /dev/full)
    output takes N     N bytes can be written, and a write behind them fails
    output writes N    the bytes come in N writes
    memory N           there are N KiB of address space

Where 'check' writes a deck, that deck is written by 'check' again as the same bytes. What runs grammars on a text that isn't
long, and has no word about workers and no device, writes the same with each number of workers that is tried.
"""
import os
import re
import resource
import signal
import socket
import subprocess
import sys
import tempfile


def spelled(line):
    """The bytes of a line, with its repetitions and its line feed."""
    line = re.sub(r"\{(?:(\d+)\.\.)?(\d+)\*([^|}]*)(?:\|([^}]*))?\}", repeated, line)
    end = "\n"
    if line.endswith("\\"):
        line, end = line[:-1], ""
    data = (line + end).encode()
    return re.sub(rb"\\(x[0-9A-F]{2}|[trn])", lambda m: bytes([code(m.group(1))]), data)


def repeated(found):
    first, last, piece, sign = found.group(1), int(found.group(2)), found.group(3), found.group(4) or ""
    if first is None:
        return piece + (sign + piece) * (last - 1)
    return sign.join(piece.replace("~", str(n)).replace("^", str(n + 1)) for n in range(int(first), last + 1))


def code(name):
    return int(name[1:], 16) if name[:1] == b"x" else {b"t": 9, b"r": 13, b"n": 10}[name]


class Case:
    def __init__(self, name):
        self.name = name
        self.words = None
        self.text = b""
        self.wanted = b""
        self.status = 0
        self.refusal = None
        self.same = False
        self.devices = {}


class Wrong(Exception):
    """A file that isn't written as it should be."""


def cases_of(path):
    """The cases of a file."""
    templates, lines, case, cases = {}, None, None, []

    def filled(rest):
        name, _, text = rest.partition(" ")
        return b"".join(spelled(line.replace("%", text)) for line in templates[name])

    with open(path, encoding="utf-8") as file:
        for number, line in enumerate(file, 1):
            line = line.rstrip("\n")
            if not line or line.startswith("#"):
                continue
            word, _, rest = line.partition(" ")
            try:
                if word == "template":
                    lines, case = [], None
                    templates[rest] = lines
                elif word == "==":
                    case = Case(rest)
                    cases.append(case)
                elif case is None:
                    if word != "<":
                        raise Wrong("no line of a template")
                    lines.append(rest)
                elif word == "$":
                    case.words = [b"" if w == '""' else spelled(w + "\\") for w in rest.split(" ")] if line != "$" else []
                elif word == "<":
                    case.text += spelled(rest)
                elif word == ">":
                    case.wanted += spelled(rest)
                elif word == "!":
                    case.status = int(rest)
                elif word == "same":
                    case.same = True
                elif word == "refused":
                    case.refusal = rest
                elif word in ("input", "output", "memory"):
                    case.devices[word] = rest.split(" ")
                elif word.startswith("@"):
                    case.text += filled(line[1:])
                elif word.startswith(">@"):
                    case.wanted += filled(line[2:])
                else:
                    raise Wrong("no line of a case")
            except (Wrong, KeyError, ValueError) as fault:
                raise Wrong("%s:%d: %s: %s" % (path, number, fault, line)) from fault
    for case in cases:
        if (case.words is None) == (case.refusal is None):
            raise Wrong("%s: %s: a case has either words or a refusal" % (path, case.name))
    return cases


# The commands that run grammars on a text, the numbers of workers that are tried beside the one that is meant where none is
# given, and how many bytes a text has at most with which they are tried.
RUNNING = (b"run", b"explain", b"phrase")
WORKERS = (b"1", b"2", b"8", b"32")
NOT_LONG = 10000


def runs_of(case):
    """The runs of a case: its words, the bytes that are wanted, and the status."""
    if case.refusal:
        wanted = ("-REFUS- %s.\n" % case.refusal).encode()
        for command in (b"run", b"check", b"graph"):
            yield [command], case.text, wanted, 2
        return
    wanted = case.text if case.same else case.wanted
    yield case.words, case.text, wanted, case.status
    if case.words[:1] and case.words[0] in RUNNING and case.status != 1 and not case.devices and len(case.text) <= NOT_LONG:
        if not any(word.startswith(b"--workers") for word in case.words):
            for workers in WORKERS:
                yield case.words + [b"--workers", workers], case.text, wanted, case.status
    if case.words[:1] == [b"check"] and case.status == 0 and wanted != case.text:
        yield case.words, wanted, wanted, 0


def standard_input(text, how):
    """A file to read the text from."""
    if how == ["fails"]:
        return os.open("/proc/self/mem", os.O_RDONLY)
    if how == ["breaks"]:
        near, far = socket.socketpair()
        near.sendall(b"unread")
        far.sendall(text)
        far.close()
        return near.detach()
    file = tempfile.TemporaryFile()
    file.write(text)
    file.seek(0)
    descriptor = os.dup(file.fileno())
    file.close()
    return descriptor


def call(program, words, text, devices):
    """The status and the bytes that the program writes, and what was wrong with a device."""
    given, taken = devices.get("input", [""]), devices.get("output", [""])

    def limits():
        signal.signal(signal.SIGXFSZ, signal.SIG_IGN)
        if taken[0] == "takes":
            resource.setrlimit(resource.RLIMIT_FSIZE, (int(taken[1]), int(taken[1])))
        if "memory" in devices:
            bytes_of_space = int(devices["memory"][0]) * 1024
            resource.setrlimit(resource.RLIMIT_AS, (bytes_of_space, bytes_of_space))

    packets = None
    if taken == ["full"]:
        sink = os.open("/dev/full", os.O_WRONLY)
    elif taken[0] == "writes":
        packets, far = socket.socketpair(socket.AF_UNIX, socket.SOCK_SEQPACKET)
        sink = far.detach()
    else:
        file = tempfile.TemporaryFile()
        sink = os.dup(file.fileno())
    source = standard_input(text, given)
    try:
        done = subprocess.run([program] + words, stdin=source, stdout=sink, stderr=subprocess.PIPE, timeout=300,
                              restore_signals=False, preexec_fn=limits if devices else None)
        wrong = None
        if given == ["unread"] and os.lseek(source, 0, os.SEEK_CUR) != 0:
            wrong = "the text was read"
        if done.stderr:
            wrong = "on standard error: " + short(done.stderr)
    finally:
        os.close(source)
        os.close(sink)
    if packets is not None:
        written = []
        while piece := packets.recv(1 << 20):
            written.append(piece)
        if len(written) != int(taken[1]):
            wrong = "%d writes" % len(written)
        return done.returncode, b"".join(written), wrong
    if taken == ["full"]:
        return done.returncode, b"", wrong
    file.seek(0)
    return done.returncode, file.read(), wrong


def short(data):
    text = data.decode("utf-8", "replace")
    return text if len(text) < 2000 else text[:900] + " .. " + text[-900:]


def main():
    program, count, failed, names = os.path.abspath(sys.argv[1]), 0, 0, set()
    for path in sys.argv[2:]:
        for case in cases_of(path):
            if case.name in names:
                raise Wrong("%s: two cases have the name %s" % (path, case.name))
            names.add(case.name)
            count += 1
            for words, text, wanted, status in runs_of(case):
                got, written, wrong = call(program, words, text, case.devices)
                if (got, written, wrong) == (status, wanted, None):
                    continue
                failed += 1
                print("decks: %s: %s: %s" % (path, case.name, b" ".join(words).decode("utf-8", "replace")))
                print("  status %s, not %s%s" % (got, status, "; " + wrong if wrong else ""))
                if written != wanted:
                    print("  wrote:\n%s\n  not:\n%s" % (short(written), short(wanted)))
    if not count:
        raise Wrong("no cases")
    print("decks: %d runs failed" % failed if failed else "decks: ok, %d cases" % count)
    return 1 if failed else 0


try:
    sys.exit(main())
except Wrong as wrong:
    sys.exit("decks: %s" % wrong)
