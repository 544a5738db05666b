#!/usr/bin/env python3
"""compare.py PORT PORT [COMMANDS [SEED]]: the same requests to two servers, each reply compared.

First those of cases.txt, byte by byte, but for the numbers of connections. Then random commands.

Commands go to both at once, in batches that are sent in one piece. Short lives end between two batches, which waits for
them; all others end after the run and seconds apart, so that the order of deadlines is the same on both. Where the machine
was so busy that short lives may have ended within a batch it isn't compared, and the next begins with no key.
A time that a command told since 1970 comes back the same; one that was told from now on may differ by a tick and by what
two batches took, since the servers don't get a command at the same time. Other replies differ by nothing.
"""

import pathlib
import random
import re
import socket
import sys
import time

sys.dont_write_bytecode = True
sys.path.append(str(pathlib.Path(__file__).resolve().parent.parent / "shared"))

from client import Client, packed

BATCH = 500
SHORT = 4_000  # milliseconds; a batch that is compared ends before
SLOW = 100  # as many slow batches aren't the machine's doing any more
NAMES = [f"name:{it}" for it in range(40)]
TIMES = {"ttl": 1_000, "pttl": 1, "expiretime": 1_000, "pexpiretime": 1}
CASES = pathlib.Path(__file__).resolve().with_name("cases.txt")
# A connection's number, in the reply to HELLO.
NUMBER = re.compile(rb"(?<=\$2\r\nid\r\n:)\d+")


def told_all(port, sent):
    """All that is answered to what is sent, until the connection ends."""
    with socket.create_connection(("127.0.0.1", port), timeout=120) as one:
        one.sendall(sent)
        one.shutdown(socket.SHUT_WR)
        return b"".join(iter(lambda: one.recv(1 << 16), b""))


def cases(ports):
    """How many cases are answered otherwise, and aren't told to be; or are told to be, and aren't."""
    lines = [it for it in CASES.read_text().split("\n") if it.strip() and not it.startswith("#")]
    wrong = others = 0
    for line in lines:
        is_other, text = line.startswith("~ "), line.removeprefix("~ ")
        sent = text.encode().decode("unicode_escape").encode("latin-1") + b"\r\n"
        ours, theirs = (NUMBER.sub(b"N", told_all(it, sent)) for it in ports)
        others += is_other
        if (ours != theirs) != is_other:
            wrong += 1
            print(f"{text[:100]}: {ours[:80]!r} and {theirs[:80]!r}")
    print(f"{len(lines)} cases, {others} of them told to be answered otherwise: {wrong} aren't as they are told to be")
    return wrong


class Draw:
    def __init__(self, seed):
        self.random = random.Random(seed)
        self.far = []

    def one(self, row):
        return self.random.choice(row)

    def word(self, text):
        return self.one([text, text.upper(), text.capitalize()])

    def name(self):
        return self.one(NAMES)

    def value(self):
        numbers = ["0", "7", "-3", "9223372036854775807", "9223372036854775806", "-9223372036854775808", "01", " 1", "-0", "+1"]
        texts = ["", "text", b"\r\n\x00\xff", "x" * 5_000]
        return self.one([str(self.random.randrange(1_000)), self.one(numbers), self.one(texts)])

    def until(self, is_compared):
        """Milliseconds from now: a life that ends before the next batch, or one that ends at no other's time. Two short
        lives of one batch aren't compared: which of them ends later is a matter of a millisecond."""
        if not is_compared and self.random.random() < 0.4:
            return SHORT
        if not self.far:
            self.far = [2_000_000 + 5_000 * it for it in range(40_000)]
            self.random.shuffle(self.far)
        return self.far.pop()

    def time(self, form, is_compared=False):
        """A time for an option or a command: from now or since 1970, in seconds or milliseconds."""
        odd = ["0", "-1", "x", "", "1.5", "9223372036854775807", "-9223372036854775808", "99999999999999999999"]
        if self.random.random() < 0.1:
            odd = self.one(odd)
            # The store has no deadline beyond the year 2109, Redis has.
            return 0 if form in ("pxat", "pexpireat") and odd[:3] == "922" else odd
        until, now = self.until(is_compared), int(time.time() * 1000)
        if form in ("px", "pexpire"):
            return until
        if form in ("pxat", "pexpireat"):
            return now + until if self.random.random() < 0.9 else now - 5_000
        until = max(until, 2_000_000)
        return until // 1000 if form in ("ex", "expire") else (now + until) // 1000

    def set(self):
        options = []
        for _ in range(self.one([0, 0, 1, 1, 1, 2, 3])):
            option = self.one(["nx", "xx", "get", "keepttl", "ex", "px", "px", "exat", "pxat", "what"])
            options.append(self.word(option))
            if option[-1] != "l" and option[0] in "ep":
                options += [self.time(option)] if self.random.random() < 0.97 else []
        return [self.word("set"), self.name(), self.value(), *options]

    def expire(self):
        form = self.one(["expire", "pexpire", "pexpire", "expireat", "pexpireat"])
        conditions = [self.word(self.one(["nx", "xx", "gt", "gt", "lt"])) for _ in range(self.one([0, 0, 1, 1, 1, 2]))]
        if self.random.random() < 0.03:
            conditions.append("what")
        is_compared = any(it.lower() in ("gt", "lt") for it in conditions)
        return [self.word(form), self.name(), self.time(form, is_compared), *conditions]

    def get_and_expire(self):
        option = self.one(["ex", "px", "exat", "pxat", "persist", "keepttl", ""])
        time = [self.time(option)] if option in ("ex", "px", "exat", "pxat") else []
        return [self.word("getex"), self.name(), *[option] * bool(option), *time]

    def transaction(self):
        """Some commands by MULTI, after a WATCH of what one of them may change or another did before."""
        def some():
            one = self.one(["get", "set", "incr", "del", "exists", "mget", "persist", "getset", "what"])
            return [self.word(one), self.name(), *[self.value()] * (one in ("set", "getset"))]

        before = [["watch", self.name(), self.name()], *[some() for _ in range(self.one([0, 1]))]] if self.random.random() < 0.6 else []
        end = self.one([["exec"], ["exec"], ["exec"], ["discard"], ["exec", "what"]])
        return [*before, ["multi"], *[some() for _ in range(self.one([0, 1, 3]))], end, ["exec"]]

    def some(self, *words):
        return [self.one(words), *[self.name() for _ in range(self.one([1, 2, 5]))]]

    def commands(self):
        """The next command, or some that belong together."""
        one, name, value, word = self.one, self.name, self.value, self.word
        kinds = ["get", "get", "incr", "decr", "persist", "del", "unlink", "getdel", "exists", "type"]
        patterns = ["*", "name:*", "name:?", "n*[1-3]", "none"]
        draws = [
            (28, lambda: [self.set()]),
            (24, lambda: [self.expire()]),
            (10, lambda: [[word(one(list(TIMES))), name()]]),
            (22, lambda: [[word(one(kinds)), name()]]),
            (2, lambda: [self.get_and_expire()]),
            (1, lambda: [[word("setex"), name(), self.time("ex"), value()]]),
            (1, lambda: [[word("psetex"), name(), self.time("px"), value()]]),
            (2, lambda: [[word(one(["incrby", "decrby"])), name(), value()]]),
            (1, lambda: [[word(one(["setnx", "getset"])), name(), value()]]),
            (1, lambda: [[word("mset"), name(), value(), name(), value()]]),
            (3, lambda: [self.some("mget", "del", "exists", "touch")]),
            (2, self.transaction),
            (0.5, lambda: [one([["ping"], ["ping", "text"], ["echo", "text"]])]),
            (0.1, lambda: [[one(["flushall", "flushdb"])]]),
            (0.4, lambda: [["scan", "0", "count", "1000", "match", one(patterns)]]),
            # Redis takes a key that is over off when it is asked for, or some time later.
            (2, lambda: [["exists", *NAMES], ["dbsize"]]),
        ]
        return self.random.choices([it[1] for it in draws], [it[0] for it in draws])[0]()


def run(batch, clients):
    """The replies of both, and the milliseconds until all were there."""
    begun, sent = time.monotonic(), b"".join(packed(*it) for it in batch)
    for client in clients:
        client.socket.sendall(sent)
    replies = [[client.reply() for _ in batch] for client in clients]
    return replies, (time.monotonic() - begun) * 1000


class Judge:
    """Compares replies. It knows the names whose deadline was told since 1970, so that it is the same on both."""

    def __init__(self):
        self.same = set()
        self.exact = self.near = 0

    def note(self, command, reply):
        form, words = str(command[0]).lower(), [str(it).lower() for it in command[1:]]
        has_options = form in ("set", "getex")
        absolute = form in ("expireat", "pexpireat") or has_options and {"exat", "pxat"} & set(words[1:])
        relative = form in ("expire", "pexpire", "setex", "psetex") or has_options and {"ex", "px"} & set(words[1:])
        if absolute and reply in (1, "OK"):
            self.same.add(words[0])
        elif relative or absolute and has_options:
            self.same.discard(words[0])

    def differ(self, command, ours, theirs, slack):
        if len(command) > 2:
            self.note(command, ours)
        form = str(command[0]).lower()
        if form == "scan":
            # The names come in any order.
            return [ours[0], sorted(ours[1])] != [theirs[0], sorted(theirs[1])]
        unit = TIMES.get(form) if len(command) == 2 else None
        if not unit or not isinstance(ours, int) or not isinstance(theirs, int) or min(ours, theirs) <= 0:
            return (type(ours), ours) != (type(theirs), theirs)
        if form.endswith("expiretime") and command[1] in self.same:
            self.exact += 1
            return ours != theirs
        self.near += 1
        return abs(ours - theirs) * unit > max(slack, unit)


def main():
    ports, rest = [int(it) for it in sys.argv[1:3]], [int(it) for it in sys.argv[3:]]
    total, seed = (rest + [20_000, 1][len(rest):])[:2]
    draw, judge, clients = Draw(seed), Judge(), [Client(f"127.0.0.1:{it}") for it in ports]
    run([["flushall"]], clients)
    wrong_cases = cases(ports)
    run([["flushall"]], clients)
    done = differences = slow = 0
    slowest, kinds = 0.0, set()
    while done < total:
        begun, batch = time.monotonic(), []
        while len(batch) < min(BATCH, total - done):
            batch += draw.commands()
        (ours, theirs), took = run(batch, clients)
        if (time.monotonic() - begun) * 1000 > SHORT * 0.9:
            slow += 1
            if slow == SLOW:
                sys.exit(f"compare.py: {slow} batches took so long that lives may have ended within them")
            run([["flushall"]], clients)
            continue
        slowest = max(slowest, took)
        for command, one, other in zip(batch, ours, theirs):
            kinds.add(str(command[0]).lower())
            if judge.differ(command, one, other, 1 + 2 * slowest):
                differences += 1
                print(f"{str(command)[:120]}: {one!r:.80}, but {other!r:.80}")
        done += len(batch)
        time.sleep((SHORT + 100) / 1000)
    print(f"{done} commands of {len(kinds)} kinds, seed {seed}: {differences} differences;", end=" ")
    print(f"{judge.exact} times are the same, {judge.near} within a tick and two batches, of {slowest:.0f} ms at most;", end=" ")
    print(f"{slow} batches were too slow to be compared")
    sys.exit(wrong_cases + differences > 0)


if __name__ == "__main__":
    main()
