#!/usr/bin/env python3
"""Makes the generated stories of crates/cases, and says what they must answer, from a plain model of a store.

    tools/stories.py          writes the stories that are played whole, those that are stopped, the sweeps, and what each of
                              these shows after each place, into crates/cases/data
    tools/stories.py told     prints what the program must print of the stories

The model knows what a store means, and nothing of how the program does it: seven kinds of collections with a row for
each call and reply, needs that conflict, transactions that are live, what they deferred, places, and which blocks a turn
keeps. What is committed is run whole, one transaction after another, on a store beside, which has to give the same
replies: what that holds after each place is what a stopped store may show. Only the standard library is used, and every
choice that looks like chance comes from the seed of the story.
"""
import bisect
import random
import sys
from pathlib import Path

DATA = Path(__file__).resolve().parent.parent / "crates" / "cases" / "data"
MAX = 2**64 - 1
# The collections of the first stories, and of those behind them.
KINDS = {"s": "set", "m": "map", "q": "queue", "n": "counter", "p": "pool"}
SIX_KINDS = KINDS | {"t": "stock"}
WITH_JOBS = SIX_KINDS | {"j": "set"}
SEVEN_KINDS = WITH_JOBS | {"u": "quotas"}
READ, WRITE, ADD, TAKE, GIVE = "read", "write", "add", "take", "give"


class Refused(Exception):
    """A line is refused, with this text behind the word."""


def hexed(value):
    return value if value else "-"


class Content:
    """Named collections, in the order of their making."""

    def __init__(self):
        self.kinds = {}
        self.held = {}

    def make(self, name, kind):
        self.kinds[name] = kind
        self.held[name] = {"set": set, "map": dict, "queue": list, "counter": int, "pool": set, "stock": int,
                            "quotas": dict}[kind]()

    def look(self, name, call):
        """The reply that a call gets now."""
        held, (what, *args) = self.held[name], call
        if what == "draw":
            # which identifier is given is open: here the one behind the greatest that is taken
            return ("id", max(held, default=-1) + 1)
        if what == "pick":
            # so is which element is picked: here the least
            return ("id", min(held)) if held else ("nothing",)
        if what == "release":
            return ("queued",) if args[0] in held else ("absent",)
        if what in ("contains", "add", "remove") and self.kinds[name] == "set":
            return ("no",) if (args[0] in held) == (what == "add") else ("yes",)
        if what in ("get", "put", "remove"):
            return ("value", held[args[0]]) if args[0] in held else ("nothing",)
        if what == "ceiling":
            keys = sorted(key for key in held if key >= args[0])
            return ("entry", keys[0], held[keys[0]]) if keys else ("nothing",)
        if what in ("take", "least"):
            return ("item", *held[0]) if held else ("nothing",)
        if self.kinds[name] == "quotas":
            level = held.get(args[0], 0)
            return {"spend": ("yes",) if args[-1] <= level else ("no",), "level": ("total", level)}.get(what, ("done",))
        if what == "spend":
            return ("yes",) if args[0] <= held else ("no",)
        return ("total", held) if what in ("read", "level") else ("done",)

    def run(self, name, call, reply):
        """Makes the change of a call with its reply."""
        held, (what, *args) = self.held[name], call
        if what == "draw":
            held.add(reply[1])
        elif self.kinds[name] == "quotas":
            by = {"spend": -args[-1] if reply == ("yes",) else 0, "level": 0}.get(what, args[-1])
            held[args[0]] = held.get(args[0], 0) + by
            if not held[args[0]]:
                del held[args[0]]
        elif what == "free":
            held.remove(args[0])
        elif what == "pick" and held:
            held.remove(reply[1])
        elif what == "add" and self.kinds[name] == "set":
            held.add(args[0])
        elif what == "remove" and self.kinds[name] == "set":
            held.discard(args[0])
        elif what == "put":
            held[args[0]] = args[1]
        elif what == "remove":
            held.pop(args[0], None)
        elif what == "add":
            bisect.insort(held, tuple(args))
        elif what == "take" and held:
            del held[0]
        elif what == "pluck":
            held.remove(tuple(args))
        elif what == "bump":
            self.held[name] = held + args[0]
        elif what == "spend" and reply == ("yes",):
            self.held[name] = held - args[0]
        elif what == "fill":
            self.held[name] = held + args[0]

    def shown(self):
        """What the program shows of it."""
        text = ""
        for name, kind in self.kinds.items():
            held = self.held[name]
            text += f"{kind} {name}\n"
            if kind in ("counter", "stock"):
                text += f"  {held}\n"
            elif kind == "quotas":
                text += "".join(f"  {key} {held[key]}\n" for key in sorted(held))
            elif kind == "map":
                text += "".join(f"  {key} {hexed(held[key])}\n" for key in sorted(held))
            elif kind == "queue":
                text += "".join(f"  {priority} {tag}\n" for priority, tag in held)
            else:
                text += "".join(f"  {x}\n" for x in sorted(held))
        return text


def need(call, reply):
    """What a call with its reply needs: a span of keys, and how."""
    what, *args = call
    if what == "refund" or len(args) == 2 and what in ("spend", "fill") or what == "level" and args:
        use = {"refund": GIVE, "fill": WRITE, "spend": TAKE if reply == ("yes",) else READ, "level": READ}[what]
        return (args[0], args[0], use)
    if what in ("spend", "level", "fill"):
        return (0, MAX, GIVE if what == "fill" else TAKE if reply == ("yes",) else READ)
    if what == "contains" or reply[0] in ("no", "absent") or what == "get":
        return (args[0], args[0], READ)
    if what == "ceiling":
        return (args[0], reply[1] if reply[0] == "entry" else MAX, READ)
    if what in ("take", "least", "pick") and reply[0] == "nothing":
        return (0, MAX, READ)
    if what in ("take", "least"):
        return (0, reply[1], WRITE if what == "take" else READ)
    if what == "remove" and reply[0] == "nothing":
        return (args[0], args[0], READ)
    if what == "add" and len(args) == 2:
        return (args[0], args[0], ADD)
    if what in ("bump", "read"):
        return (0, MAX, ADD if what == "bump" else READ)
    key = reply[1] if what in ("draw", "pick") else args[0]
    return (key, key, WRITE)


def inverse(call, reply, kind):
    """The call that takes a call with its reply back, if there is one."""
    what, *args = call
    if what == "add":
        if kind == "queue":
            return ("pluck", *args)
        return ("remove", args[0]) if reply[0] == "yes" else None
    if what == "remove" and kind == "set":
        return ("add", args[0]) if reply[0] == "yes" else None
    if what in ("put", "remove"):
        if reply[0] == "value":
            return ("put", args[0], reply[1])
        return ("remove", args[0]) if what == "put" else None
    if what == "take":
        return ("add", *reply[1:]) if reply[0] == "item" else None
    if what == "pick":
        return ("add", reply[1]) if reply[0] == "id" else None
    if what == "bump":
        return ("bump", -args[0])
    if kind == "quotas":
        return {("spend", "yes"): ("refund", *args), ("fill", "done"): ("spend", *args)}.get((what, reply[0]))
    if what == "spend":
        return ("fill", args[0]) if reply == ("yes",) else None
    return ("free", reply[1]) if what == "draw" else None


def written(call, reply):
    """Whether a record tells of the call: it did not only read."""
    return need(call, reply)[2] != READ


def compatible(one, other):
    """Whether two may have the same keys in these modes."""
    return one == other != WRITE or {one, other} == {TAKE, GIVE}


def conflict(one, other):
    return one[0] <= other[1] and other[0] <= one[1] and not compatible(one[2], other[2])


class Transaction:
    """A live transaction: its calls with their replies, what it deferred, and what it needs, each by collection."""

    def __init__(self):
        self.calls = []
        self.laters = []
        self.needs = []


class Client:
    def __init__(self):
        self.number = None
        self.ticket = None


class Store:
    """A store that a script is played on, and the same transactions run whole beside it."""

    def __init__(self, ground, pieces, reads):
        self.now = Content()
        self.beside = Content()
        self.ground = ground
        self.pieces = pieces
        self.live = {}
        self.clients = {}
        self.next = ground.next
        self.places = self.mark = self.journal = 0
        self.shown = [""]
        self.pending = [[]]
        self.device_calls = reads

    def reopen(self):
        """Opens the store anew: what has not ended is undone."""
        for client in list(self.clients.values()):
            if client.number is not None:
                self.abort(client)
        self.clients = {}
        self.places = self.mark = 0
        self.shown = [self.beside.shown()]
        self.pending = [[]]

    # What waits for the disk is a list of places for each row of records between two images.
    def note(self, count=1):
        self.pending[-1].extend([self.places] * count)

    def placed(self):
        self.places += 1
        self.note()
        self.shown.append(self.beside.shown())
        return self.places

    def entered(self, client):
        if client.number is None:
            raise Refused("10 NoSuchTxn")
        if client.number not in self.live:
            self.live[client.number] = Transaction()
            self.note()
        return self.live[client.number]

    def ask(self, client, name, asked):
        """The needs of others are in the way; else the need is taken."""
        for number in sorted(self.live):
            held = self.live[number].needs
            if number != client.number and any(n == name and conflict(s, asked) for n, s in held):
                raise Refused(f"9 Busy {number}")
        self.live[client.number].needs.append((name, asked))

    def make(self, client, kind, name):
        if name in self.now.kinds:
            raise Refused("5 NameTaken")
        self.now.make(name, kind)
        self.beside.make(name, kind)
        client.ticket = self.placed()
        return f"place {client.ticket}"

    def begin(self, client):
        if client.number is not None:
            raise Refused("25 AlreadyLive")
        client.number, self.next = self.next, self.next + 1
        return f"begun {client.number}"

    def call(self, client, name, call):
        transaction = self.entered(client)
        reply = self.now.look(name, call)
        if reply == ("queued",) and (name, call, reply) in transaction.calls:
            raise Refused("15 AlreadyGoing")
        self.ask(client, name, need(call, reply))
        self.now.run(name, call, reply)
        transaction.calls.append((name, call, reply))
        if reply == ("queued",):
            transaction.laters.append((name, ("free", call[1])))
        self.note(written(call, reply))
        if reply[0] in ("value", "entry"):
            return " ".join(map(str, (*reply[:-1], hexed(reply[-1]))))
        return " ".join(map(str, reply))

    def later(self, client, name, call):
        transaction = self.entered(client)
        self.ask(client, name, need(call, ("done",)))
        transaction.laters.append((name, call))
        self.note()
        return "done"

    def commit(self, client):
        transaction = self.entered(client)
        for name, call, reply in transaction.calls:
            beside = self.beside.look(name, call)
            if call[0] == "draw":
                assert reply[1] not in self.beside.held[name]
            elif call[0] == "pick" and reply[0] == "id":
                assert reply[1] in self.beside.held[name]
            else:
                assert beside == reply, (call, reply, beside)
            self.beside.run(name, call, reply)
        for name, call in transaction.laters:
            self.now.run(name, call, ("done",))
            self.beside.run(name, call, ("done",))
        del self.live[client.number]
        client.number, client.ticket = None, self.placed()
        return f"place {client.ticket}"

    def abort(self, client):
        if client.number is None:
            raise Refused("10 NoSuchTxn")
        transaction = self.live.pop(client.number, None)
        if transaction:
            for name, call, reply in reversed(transaction.calls):
                back = inverse(call, reply, self.now.kinds[name])
                if back:
                    # a spend takes a fill of quotas back, and finds what was filled in
                    self.now.run(name, back, ("yes",) if back[0] == "spend" else ("done",))
            self.note(sum(written(call, reply) for _, call, reply in transaction.calls) + 1)
        client.number = None
        return "aborted"

    def kept(self, client):
        if client.ticket is None:
            return "no ticket"
        return "kept" if client.ticket <= self.mark else "not yet"

    def turn(self):
        if not self.pending[0] and len(self.pending) == 1:
            return "idle"
        block = self.pending[0]
        if len(self.pending) > 1:
            # the image that is the store covers it
            del self.pending[0]
        else:
            self.pending = [[]]
            self.device_calls += 4
            self.journal += len(block)
        self.mark = max(self.mark, block[-1])
        return f"kept {self.mark}"

    def checkpoint(self):
        if self.pending[-1]:
            self.pending.append([])
        self.device_calls += self.pieces + 3
        self.journal = 0
        self.mark = max(self.mark, self.places)
        return f"flipped {self.mark}"

    def line(self, line):
        """What a line of a script is answered."""
        try:
            return self.answer(line)
        except Refused as refused:
            return f"refused {refused}"

    def answer(self, line):
        if line in ("turn", "checkpoint"):
            return self.turn() if line == "turn" else self.checkpoint()
        who, what, *words = line.split(" ")
        client = self.clients.setdefault(who, Client())
        if what == "make":
            return self.make(client, *words)
        if what in ("call", "later"):
            name, call, *args = words
            values = (int(args[0]), args[1]) if call == "put" else map(int, args)
            return getattr(self, what)(client, name, (call, *values))
        return {"begin": self.begin, "commit": self.commit, "abort": self.abort, "kept": self.kept}[what](client)


class Ground:
    """The store that a story begins on: the lines of the case that make it, what they print, and what they show."""

    def __init__(self, lines, told, shown, next_number, pieces, reads):
        self.lines, self.told, self.shown = lines, told, shown
        self.next, self.pieces, self.reads = next_number, pieces, reads


EMPTY = Ground([], [], "", 1, 1, 6)

ZEROS = "00" * 256

EMPTY_IMAGE = "a7000000120b000000000000000100000000000000000c"


def wide():
    """A map of 250 values of 256 bytes, which takes two blocks of an image, on areas of 131,072 bytes."""
    lines = ["disk 266240", "format 131072", "| c1 make map w", "| c1 begin", f"repeat 0 125 c1 call w put # {ZEROS}",
             "| c1 commit", "| turn", "| c1 begin", f"repeat 125 250 c1 call w put # {ZEROS}", "| c1 commit", "| checkpoint",
             "last 1", "play"]
    told = ["disk 266240", "format 131072", "= 0", "last 1", "play", "= 0", "(256 lines)", "257: flipped 3"]
    shown = "map w\n" + "".join(f"  {key} {ZEROS}\n" for key in range(250))
    return Ground(lines, told, shown, 3, 2, 9)


def call_line(chance, kinds):
    """A call that looks like chance, of one of the collections; picks where the set is one of jobs."""
    key, by = chance.randrange(4), chance.randrange(256)
    of_stock = [f"call t spend {key}", f"call t spend {by}", "call t level", f"later t fill {key}"]
    of_quotas = [f"call u spend {key} {by}", f"call u spend {key} {key}", f"call u level {key}", f"call u fill {key} {by}"]
    of_jobs = [f"call j add {key}", f"call j add {by}", "call j pick", "call j pick", "call j pick", f"call j contains {key}"]
    return chance.choice([
        f"call s contains {key}", f"call s add {key}", f"call s remove {key}", f"call m get {key}",
        f"call m put {key} {by:02x}", f"call m remove {key}", f"call m ceiling {key}", f"call q add {key} 0",
        "call q take", "call q least", f"call n bump {by}", "call n read", "call p draw", f"call p release {key}",
        f"later n bump {by}", *(of_stock if "t" in kinds else []), *(of_jobs if "j" in kinds else []),
        *(of_quotas if "u" in kinds else [])])


def story_line(chance, client, is_open, kinds):
    """A line of a client that looks like chance: one that has no transaction mostly begins one."""
    which = chance.randrange(26)
    if not is_open and which >= 9:
        return f"{client} begin"
    if which == 0:
        return f"{client} make counter z"
    if which <= 2:
        return f"{client} commit"
    if which == 3:
        return chance.choice([f"{client} abort", f"{client} begin"])
    if which <= 6:
        return "turn"
    if which == 7:
        return f"{client} kept"
    return "checkpoint" if which == 8 else f"{client} {call_line(chance, kinds)}"


def story(seed, count, kinds=KINDS):
    """A collection of each kind, two open transactions of which one has called, and so many lines behind them."""
    chance = random.Random(seed)
    lines = [f"c1 make {kind} {name}" for name, kind in kinds.items()]
    lines += ["c1 begin", "c2 begin", "c2 call n bump 3", "turn"]
    is_open = {"c1": True, "c2": True, "c64": False}
    for _ in range(count):
        client = chance.choice(["c1", "c2", "c64"])
        line = story_line(chance, client, is_open[client], kinds)
        if line.endswith((" begin", " commit", " abort")):
            is_open[client] = line.endswith(" begin")
        lines.append(line)
    return lines + ["turn", "checkpoint", "turn"]


def played(ground, lines):
    """The store behind a script, and what each line is answered."""
    store = Store(ground, ground.pieces, ground.reads)
    return store, [f"{number}: {store.line(line)}" for number, line in enumerate(lines, 1)]


def case(name, ground, lines):
    scripted = (line if line.startswith("repeat ") else f"| {line}" for line in lines)
    return [f"@ {name}", *ground.lines, *scripted]


def brief(line):
    """A line with its long runs of one character cut short, as the program prints it."""
    out, at = "", 0
    while at < len(line):
        end = at
        while end < len(line) and line[end] == line[at]:
            end += 1
        out += f"{line[at]}{{{end - at}}}" if end - at > 16 else line[at:end]
        at = end
    return out


def told_story(name, ground, lines):
    """What the program prints of a story that is played and shown."""
    store, answers = played(ground, lines)
    shown = [brief(line) for line in (ground.shown + store.beside.shown()).splitlines()]
    return [f"@ {name}", *ground.told], ["play", "= 0", *answers, "show", "= 0", *shown], store


def stopped(name, file, ground, lines):
    """The case of a story that is stopped at each call, then played and shown; and what the program prints of it."""
    head, tail, store = told_story(name, ground, lines)
    cased = case(name, ground, lines) + [f"stops {file}"] + [f"| {line}" for line in lines] + ["play", "show"]
    calls = [f"as {way}: {store.device_calls} calls" for way in ("read", "00", "ff", "a7")]
    return cased, head + [f"stops {file}"] + calls + tail, ".\n".join(store.shown)


def whole(name, lines):
    """The case of a story that is played and shown, and what the program prints of it."""
    head, tail, _ = told_story(name, EMPTY, lines)
    return case(name, EMPTY, lines) + ["play", "show"], head + tail


# Scripts that a sweep fails and stops at each call, by the files of what they show. They are those of cases, without turns that
# a store with nothing pending or a full area answers otherwise than the model.
SWEPT = {
    "element": ["c1 make set s", "c1 begin", "c1 call s add 7", "c1 call s add 7", "c1 commit", "turn", "c1 kept"],
    "bumps": ["c1 make counter n", "c1 begin", "c2 begin", "c1 call n bump 5", "c2 call n bump 7", "c1 call n bump 1", "c1 abort",
              "c2 commit", "turn", "c2 kept"],
    "covered": ["c1 make counter n", "c1 begin", "c1 call n bump 5", "checkpoint", "c2 begin", "c2 call n bump 2", "c2 commit",
                "turn", "turn", "c2 kept"],
    "loser": ["c1 make counter n", "c1 begin", "c2 begin", "repeat 0 100 c1 call n bump 1", "c2 call n bump 2", "c2 commit", "turn"],
    "spends": ["c1 make stock t", "c1 begin", "c1 later t fill 10", "c1 commit", "turn", "c1 begin", "c2 begin", "c1 call t spend 4",
               "c2 call t spend 6", "c3 begin", "c3 call t spend 1", "c2 later t fill 5", "c1 abort", "c2 commit", "turn", "c2 kept"],
    "quotas": ["c1 make quotas u", "c1 begin", "c1 call u fill 7 10", "c1 call u fill 9 1", "c1 commit", "turn", "c1 begin", "c2 begin",
               "c1 call u spend 7 4", "c2 call u spend 7 6", "c3 begin", "c3 call u spend 7 1", "c3 call u spend 9 1", "c1 abort", "c2 commit",
               "turn", "c2 kept"],
    "picks": ["c1 make set s", "c1 begin", "c1 call s add 1", "c1 call s add 2", "c1 call s add 3", "c1 commit", "turn", "c1 begin",
              "c2 begin", "c1 call s pick", "c2 call s pick", "c3 begin", "c3 call s pick", "c1 abort", "c2 commit", "turn", "c2 kept"],
    "release": ["c1 make pool p", "c1 begin", "c1 call p draw", "c1 call p release 0", "c1 call p release 0", "c1 commit", "turn",
                "c1 begin", "c1 call p draw", "c1 call p release 0", "turn", "c1 kept"],
    "room": ["c1 make map m", "c1 begin", f"repeat 0 100 c1 call m put # {ZEROS}", "c1 commit", "turn", "c1 begin", f"repeat 0 40 c1 call m put # {ZEROS}", "c1 commit", "turn",
             "c1 begin", f"repeat 0 10 c1 call m put # {ZEROS}", "c1 commit", "turn", "c1 kept", "checkpoint", "c1 kept", "turn", "turn"],
    # The last block fits, but not the undoing of the open transaction behind it; the image fits with that.
    "full": ["c1 make counter n", "c1 make map m", "c1 begin", "repeat 0 300 c1 call n bump 1", "turn",
             "c2 begin", f"repeat 0 140 c2 call m put # {ZEROS}", "c2 commit", "turn",
             "c2 begin", f"repeat 140 194 c2 call m put # {ZEROS}", "c2 commit", "turn", "c2 kept", "checkpoint", "c2 kept", "turn", "c2 kept"],
    # The image fits, but not with that undoing, and then it does, as the transaction is aborted.
    "no_image": ["c1 make counter n", "c1 make map m", "c1 begin", "repeat 0 300 c1 call n bump 1", "turn",
                 "c2 begin", f"repeat 0 140 c2 call m put # {ZEROS}", "c2 commit", "turn",
                 "c2 begin", f"repeat 140 204 c2 call m put # {ZEROS}", "c2 commit", "turn", "checkpoint", "c2 kept",
                 "c1 abort", "checkpoint", "c2 kept", "turn", "c2 kept"],
}


HITS = ["c1 make counter hits", "c1 begin", "c1 call hits bump 1", "c1 commit", "turn"]


def expanded(lines):
    """The lines of a script, of which one may be repeated with a number in the place of its mark."""
    for line in lines:
        if line.startswith("repeat "):
            _, first, end, text = line.split(" ", 3)
            yield from (text.replace("#", str(n), 1) for n in range(int(first), int(end)))
        else:
            yield line


def swept(name, ground, lines):
    """The case of a script that is swept, and what it shows after each place, with its file."""
    store, _ = played(ground, expanded(lines))
    file = f"{name}.shown"
    shown = ["=\n" if text == before else text for before, text in zip([None, *store.shown], store.shown)]
    return case(f"{name} is failed and stopped at each call", ground, lines) + [f"sweep {file}"], file, ".\n".join(shown)


def write_sweeps(folder, scripts):
    """Writes the cases of scripts that are swept, by their names, into the file sweeps of a folder, and what they show beside it."""
    lines = ["# Scripts that are failed and stopped at each call of the disk, written by tools/stories.py."]
    for name, (ground, script) in scripts.items():
        cased, file, shown = swept(name, ground, script)
        lines += cased
        (folder / file).write_text(shown)
    lines += case("a thousand areas of bytes of a generator", EMPTY, HITS) + ["play", "areas 1 1000"]
    (folder / "sweeps").write_text("\n".join(lines) + "\n")


def any_bytes(seed):
    """Areas, and journals behind an empty image, of bytes that look like chance."""
    chance = random.Random(seed)
    lines = ["@ areas of any bytes"]
    for _ in range(30):
        lines.append("area " + bytes(chance.choices(range(256), k=60)).hex())
        lines.append("area a7000000" + bytes(chance.choices(range(20), k=60)).hex())
    lines.append("@ journals of any bytes")
    for _ in range(60):
        head = bytes([0xA7, 0, 0, 0, chance.randrange(64), chance.choice([1, 2, 3, 4, 5, 13, 255])])
        lines.append("area " + EMPTY_IMAGE + head.hex() + bytes(chance.choices(range(14), k=40)).hex())
    lines.append("@ records of any bytes")
    for _ in range(100):
        lines.append("record map: " + bytes(chance.choices(range(14), k=40)).hex())
    return lines


def main():
    halted, cases, told = [], [], []
    for ground, count, seeds, kinds in ((EMPTY, 40, (5, 6, 8), KINDS), (wide(), 20, (25, 38), KINDS), (EMPTY, 60, (41,), SIX_KINDS),
                                       (EMPTY, 60, (44,), WITH_JOBS), (EMPTY, 60, (47,), SEVEN_KINDS)):
        for seed in seeds:
            file = f"story_{seed}.shown"
            cased, printed, shown = stopped(f"story {seed} is stopped at each call", file, ground, story(seed, count, kinds))
            halted, told = halted + cased, told + printed
            if sys.argv[1:] != ["told"]:
                (DATA / file).write_text(shown)
    for seeds, kinds in ((range(100, 112), KINDS), (range(112, 116), SIX_KINDS), (range(116, 120), WITH_JOBS),
                         (range(120, 124), SEVEN_KINDS)):
        for seed in seeds:
            cased, printed = whole(f"story {seed} is played whole", story(seed, 250, kinds))
            cases, told = cases + cased, told + printed
    if sys.argv[1:] == ["told"]:
        print("\n".join(told))
    else:
        head = "# Generated stories, written by tools/stories.py, which also says what they must answer."
        (DATA / "stopped_stories").write_text("\n".join([head, *halted]) + "\n")
        (DATA / "stories").write_text("\n".join([head, *cases]) + "\n")
        head = "# Bytes that look like chance, written by tools/stories.py: each area is refused or opened."
        (DATA / "any_bytes").write_text("\n".join([head, *any_bytes(1)]) + "\n")
        write_sweeps(DATA, {name: (EMPTY, lines) for name, lines in SWEPT.items()})


if __name__ == "__main__":
    main()
