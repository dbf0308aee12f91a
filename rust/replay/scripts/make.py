#!/usr/bin/env python3
"""Writes random scripts of each kind with the replies of poolrun.

    make.py COUNT            so many, with the replies of crates/poolrun as `rt try` builds it, without a proof
    make.py COUNT POOLRUN    with those of the program POOLRUN; `rt run` in crates/poolrun leaves a proved one, out/poolrun

managed.txt and unmanaged.txt have a COUNT of 1500. The lines are chosen by a generator with a fixed seed, which knows nothing of a
pool. It notes of each reply whether an object was handed out and whether a party has ended, so that most lines name an object that is
out or a party that goes on; some name others. At its end each script asks what was counted, before a closing and after it. The replies
are those of poolrun, none is written by hand.

`rt try` runs whole scripts alone. So it runs the lines that the stored replies choose, and those scripts again whose replies choose
others. Once is enough if replies have only other words; a script of which all is new takes as many runs as it has lines. Each run
builds the program in two minutes of a processor, and a script takes a fifth of a second. With POOLRUN a script is played once.
"""
import os
import random
import subprocess
import sys
import tempfile

MANAGED = ["start"] * 4 + ["timed"] * 2 + ["poll"] * 16 + ["cancel"] * 2 + ["back"] * 6 + ["take", "put", "resize", "resize",
           "retain", "status", "status", "status", "clone", "drop", "upgrade"] + ["answer"] * 5 + ["rare"]
UNMANAGED = ["get"] * 3 + ["timed"] * 2 + ["add"] * 3 + ["poll"] * 14 + ["tryget"] * 3 + ["tryadd"] * 3 + ["cancel"] * 2 + \
            ["back"] * 6 + ["take"] * 2 + ["status"] * 3 + ["clone", "drop", "rare"]
WORDS = {"create": ["ok", "pending", "refuse"], "recycle": ["ok", "pending", "refuse", "add"], "pre": ["ok", "pending", "refuse", "add"],
         "post": ["ok", "pending", "refuse", "add"], "postcreate": ["ok", "pending", "refuse", "add"]}


class Script:
    def __init__(self, dice):
        self.dice, self.parties, self.now, self.handles = dice, 0, 0, 1
        self.going, self.out, self.seen = [], [], []

    def party(self):
        if self.going and self.dice.random() < 0.95:
            return self.dice.choice(self.going)
        return self.dice.randrange(max(1, self.parties + (self.dice.random() < 0.05)))

    def object(self):
        if self.out and self.dice.random() < 0.95:
            return self.dice.choice(self.out)
        return self.dice.randrange(8) + self.first

    def seen_object(self):
        return self.dice.choice(self.seen) if self.seen and self.dice.random() < 0.9 else self.object()

    def next_line(self):
        """A line, seldom one that names what is not there."""
        while True:
            line = self.line()
            kind, *words = line.split()
            named = {"poll": self.going, "cancel": self.going, "back": self.out, "take": self.out, "put": self.out}.get(kind)
            if named is None or int(words[0]) in named or self.dice.random() < 0.03:
                return line

    def note(self, line, reply):
        """Notes what a reply says of parties and of objects that are out."""
        kind, *words = line.split()
        named = int(words[0]) if words and words[0].isdigit() else None
        if kind in ("start", "get", "add") and reply.startswith("party "):
            self.going.append(int(reply.split()[1]))
        if kind == "cancel" or (kind == "poll" and reply not in ("pending", "no such")):
            self.going = [party for party in self.going if party != named]
        if kind in ("back", "take"):
            self.out = [number for number in self.out if number != named]
        if reply.startswith("object "):
            self.out.append(int(reply.split()[1]))
            self.seen.append(self.out[-1])

    def wait(self):
        return self.dice.choice(["-", "-", "0", "1", "5", "5", "20"])

    def bound(self):
        return self.dice.choice(["", "", "", " most 0", " most 1", " most 2"])

    def common(self, kind):
        dice = self.dice
        if kind == "poll":
            self.now += dice.choice([0, 0, 1, 3, 10])
            return f"poll {self.party()} {self.now}"
        if kind in ("back", "take"):
            return f"{kind} {self.object()}"
        if kind == "drop":
            # (the last handle mostly stays)
            if self.handles > 1 or dice.random() < 0.1:
                self.handles -= 1
                return "drop"
            return "status"
        if kind == "clone":
            self.handles += 1
            return "clone"
        if kind == "rare":
            return "close" if dice.random() < 0.15 else "status"
        return f"cancel {self.party()}" if kind == "cancel" else kind


class Managed(Script):
    kinds = MANAGED
    # (what is left in a pool with a get under way, no call of the Rust crate tells)
    ending = ["tally", "close", "tally"]

    def opening(self):
        dice = self.dice
        self.first = dice.choice([0, 0, 0, 7])
        floor = dice.choice(["", "", f" {dice.randrange(3)}"])
        return f"pool {dice.choice([0, 1, 1, 2, 2, 3, 4])} {dice.choice(['fifo', 'lifo'])} {dice.choice(['none', 'clock', 'clock'])} {self.first}{floor}{self.bound()}"

    def line(self):
        dice, kind = self.dice, self.dice.choice(self.kinds)
        if kind in ("start", "timed"):
            self.parties += 1
            return "start" if kind == "start" else f"start {self.wait()} {self.wait()} {self.wait()}"
        if kind == "put":
            return f"put {self.object()} {dice.randrange(100)}"
        if kind == "resize":
            return f"resize {dice.randrange(6)}"
        if kind == "retain":
            return " ".join(["retain", *[str(self.seen_object()) for _ in range(dice.randrange(4))]])
        if kind == "upgrade":
            self.handles += self.handles > 0
            return kind
        if kind == "answer":
            of = dice.choice(list(WORDS))
            return " ".join(["answer", of, *[dice.choice(WORDS[of]) for _ in range(dice.randrange(1, 4))]])
        return self.common(kind)


class Unmanaged(Script):
    kinds = UNMANAGED
    ending = ["tally", "drain", "tally"]
    first = 0

    def opening(self):
        return f"unmanaged {self.dice.choice([0, 1, 1, 2, 2, 3, 4])} {self.dice.choice(['none', 'clock', 'clock'])}{self.bound()}"

    def line(self):
        kind = self.dice.choice(self.kinds)
        if kind in ("get", "timed", "add"):
            self.parties += 1
            return {"get": "get", "timed": f"get {self.wait()}", "add": f"add {self.dice.randrange(100)}"}[kind]
        if kind == "tryadd":
            return f"tryadd {self.dice.randrange(100)}"
        return self.common(kind)


KINDS = {"managed": Managed, "unmanaged": Unmanaged}
HERE = os.path.dirname(os.path.abspath(__file__))


def made(name, seed, ask):
    """Returns the lines of a script with their replies, by what asks for the reply to a line."""
    script = KINDS[name](random.Random(f"{name} {seed}"))
    count = script.dice.randrange(10, 45)
    told = []
    for at in range(count + 1 + len(script.ending)):
        line = script.opening() if at == 0 else script.next_line() if at <= count else script.ending[at - count - 1]
        reply = ask(line)
        script.note(line, reply)
        told.append((line, reply))
    return told


def asked(program, name, seed):
    """Returns a script with the replies of a program, line by line."""
    with subprocess.Popen([program], stdin=subprocess.PIPE, stdout=subprocess.PIPE, text=True) as ran:

        def ask(line):
            ran.stdin.write(line + "\n")
            ran.stdin.flush()
            return ran.stdout.readline().rstrip("\n")

        told = made(name, seed, ask)
        ran.stdin.close()
        assert ran.wait() == 0 and not ran.stdout.read(), told
    return told


def recalled(name, seed, known):
    """Returns a script with the replies that are known of its lines. Of others it has none."""
    left = iter(known)

    def ask(line):
        was, reply = next(left, (None, ""))
        return reply if was == line else ""

    return made(name, seed, ask)


def stored(name):
    """Returns the scripts that stand in a file."""
    with open(f"{HERE}/{name}.txt", encoding="utf-8") as file:
        return [[tuple(line.split(" => ")) for line in it.strip("\n").split("\n")] for it in file.read().split("\n\n")]


def tried(scripts):
    """Returns scripts, by their names, with the replies of poolrun as `rt try` builds it."""
    with tempfile.TemporaryDirectory() as folder:
        for name, told in scripts.items():
            with open(f"{folder}/{name}", "w", encoding="utf-8") as file:
                file.write("".join(f"{line}\n" for line, _ in told))
        command = ["rt", "try", "--cases", folder]
        ran = subprocess.run(command, cwd=f"{HERE}/../../../crates/poolrun", stdout=subprocess.PIPE, text=True, check=True)
    replies = {}
    for part in f"\n{ran.stdout}".split("\n== ")[1:]:
        name, *lines = part.rstrip("\n").split("\n")
        replies[name] = lines
    for name, told in scripts.items():
        assert len(told) == len(replies[name]), (name, replies[name])
    return {name: [(line, reply) for (line, _), reply in zip(told, replies[name])] for name, told in scripts.items()}


def all_tried(count):
    """Returns the scripts of all kinds, by their names, once they are the ones that their replies choose."""
    left = {f"{name}_{seed}": (name, seed) for name in KINDS for seed in range(count)}
    known = {f"{name}_{seed}": told for name in KINDS for seed, told in enumerate(stored(name))}
    while left:
        known |= tried({key: recalled(*seed, known.get(key, [])) for key, seed in left.items()})
        left = {key: seed for key, seed in left.items() if recalled(*seed, known[key]) != known[key]}
        print(f"{len(left)} scripts have other lines now", flush=True)
    return known


def main():
    count, program = int(sys.argv[1]), sys.argv[2:]
    known = {} if program else all_tried(count)
    for name in KINDS:
        scripts = [asked(os.path.abspath(program[0]), name, it) if program else known[f"{name}_{it}"] for it in range(count)]
        with open(f"{HERE}/{name}.txt", "w", encoding="utf-8") as file:
            file.write("\n".join("".join(f"{line} => {reply}\n" for line, reply in told) for told in scripts))


if __name__ == "__main__":
    main()
