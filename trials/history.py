#!/usr/bin/env python3
"""Reads the log of a run by the rules of docs/history.md, and says whether it is a legal and finished history: history.py GRAPH STACK LOG

It prints `finished`, `unfinished` where the log is a front of a legal history that isn't finished, or `entry N` where N entries, and no fewer, are no
front of one. It is a second reading of those rules, written from that page alone: each fact is worked out anew from the entries before, as it is defined
there, so it is for short logs."""

import re
import struct
import sys
import tomllib

FORMS = {
    "load": "role index block size fresh given regrown",
    "loadrefused": "role index need held",
    "tick": "tick",
    "issue": "role index",
    "emit": "node maker index why",
    "accept": "node maker index",
    "full": "node maker index",
    "take": "role node maker index",
    "takeblock": "role node maker index block size fresh given regrown",
    "pooldrop": "role node maker index need held",
    "put": "role node maker index fired",
    "sortdrop": "node maker index",
    "settle": "role node",
    "save": "role node maker index group",
    "saved": "role node maker index",
    "close": "role",
    "leave": "role",
    "reclaim": "role",
}
FLAGS = ("fresh", "regrown", "fired")
NAMED = {"block", "size", "fresh", "given", "regrown", "need", "held", "fired", "group"}
WIDTHS = {"Int8": 1, "UInt8": 1, "Int16": 2, "UInt16": 2, "Int32": 4, "UInt32": 4}
TYPES = ["Int8", "UInt8", "Int16", "UInt16", "Int32", "UInt32"]


class Entry:
    """A line of a log: its kind, and its numbers and words under their names."""

    def __init__(self, kind, **fields):
        self.kind, self.role, self.node = kind, None, None
        self.__dict__.update(fields)

    @classmethod
    def read(cls, line):
        kind, *words = line.split(" ")
        fields = {}
        for name in FORMS[kind].split():
            if name in NAMED and words.pop(0) != name:
                raise ValueError(line)
            fields[name] = words.pop(0)
        entry = cls(kind, **{name: word if name == "why" else int(word) for name, word in fields.items()})
        if words or entry.line() != line or any(fields.get(it, "0") not in "01" for it in FLAGS):
            raise ValueError(line)
        return entry

    def line(self):
        words = [self.kind]
        for name in FORMS[self.kind].split():
            words += [name] * (name in NAMED) + [str(self.__dict__[name])]
        return " ".join(words)

    @property
    def array(self):
        return (0, self.index) if self.kind in ("load", "issue") else (self.maker, self.index)


# --- stacks


class Stack:
    """What a log needs of a stack: the ids, the sizes of a frame, its type, and the whole attributes of each frame."""

    def __init__(self, name):
        with open(name, "rb") as file:
            self.bytes, self.at = file.read(), 4
        self.is_wide = self.bytes[3] == 2
        self.records = self.word()
        dims = self.many(lambda: (self.name(), self.word())[1])
        whole = {}
        for name, kind, values in self.many(self.attribute):
            whole.setdefault(name, values if kind == 4 else None)
        variables = self.many(lambda: self.variable(dims))
        first = {}
        for it in variables:
            first.setdefault(it["name"], it)
        record = [it for it in variables if it["dims"] and it["dims"][0] == 0]
        self.record_size = record[0]["size"] if len(record) == 1 else sum(-(-it["size"] // 4) * 4 for it in record)
        data = first["array_data"]
        self.frames = data["dims"][0] or self.records
        self.sizes = data["dims"][:0:-1]
        number = (whole.get("dataType") or [None])[0]
        self.type = TYPES[number] if number is not None else {1: "Int8", 3: "Int16", 4: "Int32"}[data["type"]]
        self.ids = self.values(first["uniqueId"]) if "uniqueId" in first else list(range(1, self.frames + 1))
        self.attributes = {}
        for it in variables:
            if it["name"].startswith("Attr_"):
                is_whole = it["type"] in (1, 3, 4)
                self.attributes.setdefault(it["name"][5:], self.values(it) if is_whole else None)

    def word(self, form=">I"):
        value = struct.unpack_from(form, self.bytes, self.at)[0]
        self.at += struct.calcsize(form)
        return value

    def name(self):
        length = self.word()
        text = self.bytes[self.at : self.at + length].decode()
        self.at += -(-length // 4) * 4
        return text

    def many(self, one):
        self.word()
        return [one() for _ in range(self.word())]

    def attribute(self):
        name, kind, count = self.name(), self.word(), self.word()
        values = list(struct.unpack_from(f">{count}i", self.bytes, self.at)) if kind == 4 else []
        self.at += -(-count * (0, 1, 1, 2, 4, 4, 8)[kind] // 4) * 4
        return name, kind, values

    def variable(self, dims):
        name = self.name()
        sizes = [dims[self.word()] for _ in range(self.word())]
        self.many(self.attribute)
        kind, _, begin = self.word(), self.word(), self.word(">Q" if self.is_wide else ">I")
        size = (0, 1, 1, 2, 4, 4, 8)[kind]
        for it in sizes:
            size *= it or 1
        return {"name": name, "dims": sizes, "type": kind, "size": size, "begin": begin}

    def values(self, it):
        form = {1: ">b", 3: ">h", 4: ">i"}[it["type"]]
        step = self.record_size if it["dims"][0] == 0 else struct.calcsize(form)
        return [struct.unpack_from(form, self.bytes, it["begin"] + k * step)[0] for k in range(self.frames)]


# --- graphs


def clamp(value, least, most):
    return max(least, min(most, value))


def sizes_of_region(node, sizes):
    """The sizes of a region's output, by docs/graph-rules.md."""
    item = lambda key, place, other: node.get(key, [])[place] if place < len(node.get(key, [])) else other
    out = []
    for place, size in enumerate(sizes):
        least = clamp(item("min", place, 0), 0, size - 1)
        auto = item("auto", place, place >= len(node.get("size", [])))
        taken = size - least if auto else clamp(item("size", place, size), 1, size - least)
        out.append(taken // clamp(item("bin", place, 1), 1, taken))
    return out


class Trigger:
    """A trigger expression over attributes, by the levels of docs/graph-rules.md."""

    LEVELS = [["||"], ["&&"], ["==", "!=", "<", "<=", ">", ">="], ["+", "-"], ["*"]]

    def __init__(self, text):
        self.rest = re.findall(r"\d+|\|\||&&|[=!<>]=|[<>!+\-*()AB]", text)
        self.letters = {it for it in self.rest if it in "AB"}
        self.tree = self.level(0)

    def level(self, number):
        if number == len(self.LEVELS):
            return self.part()
        tree, is_comparison = self.level(number + 1), number == 2
        while self.rest and self.rest[0] in self.LEVELS[number]:
            tree = (self.rest.pop(0), tree, self.level(number + 1))
            if is_comparison:
                break
        return tree

    def part(self):
        symbol = self.rest.pop(0)
        if symbol in "!-":
            return (symbol, self.part())
        if symbol == "(":
            tree = self.level(0)
            self.rest.pop(0)
            return tree
        return symbol

    def value(self, tree, letters):
        if isinstance(tree, str):
            return letters[tree] if tree in "AB" else int(tree)
        symbol, *parts = tree
        values = [self.value(it, letters) for it in parts]
        if len(values) == 1:
            return clamp(-values[0], -(2**63), 2**63 - 1) if symbol == "-" else int(values[0] == 0)
        a, b = values
        if symbol in "+-*":
            return clamp({"+": a + b, "-": a - b, "*": a * b}[symbol], -(2**63), 2**63 - 1)
        both = {"||": a != 0 or b != 0, "&&": a != 0 and b != 0, "==": a == b, "!=": a != b, "<": a < b, "<=": a <= b, ">": a > b, ">=": a >= b}
        return int(both[symbol])

    def fires(self, letters):
        return all(letters[it] is not None for it in self.letters) and self.value(self.tree, letters) != 0


class Setting:
    """A graph over a stack: its nodes from 1 on, with the number of each input, and the driver as node 0."""

    def __init__(self, graph, stack):
        with open(graph, "rb") as file:
            tables = tomllib.load(file)
        run = tables.get("run", {})
        self.stack, self.waits, self.limit = stack, run.get("feed", "free") == "wait", run.get("pool", 0)
        self.nodes = [{"kind": "driver"}] + tables.get("node", [])
        numbers = {"driver": 0, **{it["name"]: v for v, it in enumerate(self.nodes) if v}}
        for it in self.nodes[1:]:
            it["from"] = numbers[it["input"]]
        self.inner = range(1, len(self.nodes))
        self.drain = 1 + sum(self.of(v, "threads", 1) for v in self.inner)
        self.triggers = {v: Trigger(self.nodes[v]["trigger"]) for v in self.inner if self.kind(v) == "circular"}

    def of(self, v, key, default=0):
        return self.nodes[v].get(key, default)

    def kind(self, v):
        return self.nodes[v]["kind"]

    def is_node(self, v):
        return v in self.inner

    def children(self, v):
        return [w for w in self.inner if self.nodes[w]["from"] == v]

    def is_sorted(self, v):
        return self.kind(v) in ("roi", "stats", "scatter") and self.of(v, "sort") > 0

    def form(self, v):
        """The sizes and the type of what goes out of a node."""
        if v == 0:
            return self.stack.sizes, self.stack.type
        sizes, kind = self.form(self.nodes[v]["from"])
        return (sizes_of_region(self.nodes[v], sizes), self.of(v, "type", kind)) if self.kind(v) == "roi" else (sizes, kind)

    def bytes_of(self, v):
        sizes, kind = self.form(v)
        count = WIDTHS[kind]
        for it in sizes:
            count *= it
        return count

    def fires(self, v, index):
        whole = lambda key: (self.stack.attributes.get(self.of(v, key, "")) or {index: None})[index]
        return self.triggers[v].fires({"A": whole("a"), "B": whole("b")})


# --- standing facts, each of the entries so far

TAKES_UP = ("load", "take", "takeblock", "save")
PUTS_DOWN = ("issue", "put", "saved", "reclaim")


class Facts:
    def __init__(self, setting, past):
        self.s, self.past = setting, past

    def of(self, *kinds):
        return [it for it in self.past if it.kind in kinds]

    def hand(self, role):
        held = None
        for it in self.past:
            if it.role == role and it.kind in TAKES_UP + PUTS_DOWN:
                held = it if it.kind in TAKES_UP else None
        return held

    def hands(self):
        return [held for role in range(self.s.drain + 1) if (held := self.hand(role))]

    def standing(self, *kinds):
        """The entries of these kinds that no reclaim undid."""
        undone, held = set(), {}
        for it in self.past:
            if it.kind in TAKES_UP:
                held[it.role] = it
            elif it.kind in PUTS_DOWN and (last := held.pop(it.role, None)) and it.kind == "reclaim":
                undone.add(id(last))
        return [it for it in self.of(*kinds) if id(it) not in undone]

    def next_index(self):
        offered = {it.index for it in self.standing("load") + self.of("loadrefused")}
        return next(k for k in range(len(offered) + 1) if k not in offered)

    def queued(self, v):
        queue, held = [], {}
        for it in self.past:
            if it.kind == "accept" and it.node == v:
                queue.append(it.array)
            elif it.kind in ("take", "takeblock", "pooldrop") and it.node == v:
                queue.remove(it.array)
            elif it.kind == "reclaim" and (last := held.get(it.role)) and last.kind in ("take", "takeblock") and last.node == v:
                queue.insert(0, last.array)
            if it.kind in TAKES_UP + PUTS_DOWN:
                held[it.role] = it if it.kind in TAKES_UP else None
        return queue

    def jobs(self, v):
        return [it for it in self.hands() if it.kind in ("take", "takeblock") and it.node == v]

    def puts(self, v):
        return [it for it in self.of("put") if it.node == v]

    def waiting(self, v):
        """What waits at a sorted node, the least first, each with its tick."""
        waits, now = [], 0
        for it in self.past:
            now = it.tick if it.kind == "tick" else now
            if it.node == v and it.kind == "put":
                waits.append((it.array, now))
            elif it.node == v and it.kind in ("emit", "sortdrop"):
                # Of equal arrays that wait the first is meant, which has the least place.
                waits.remove(next(one for one in waits if one[0] == it.array))
        return sorted(waits, key=lambda one: self.s.stack.ids[one[0][1]]) if self.s.is_sorted(v) else []

    def prev(self, v):
        out = self.standing("save") if v and self.s.kind(v) == "file" else self.of("emit")
        out = [it for it in out if it.node == v]
        ids = self.s.stack.ids
        return ids[out[-1].index] if out else ids[0] - 1 if ids else 0

    def keeps_step(self, v, index):
        return self.s.stack.ids[index] - self.prev(v) in (0, 1)

    def triggers(self, v, fired):
        preset, found, least = self.s.of(v, "preset"), [], 0
        for place, it in enumerate(fired):
            if it and place >= least and not (preset and len(found) == preset):
                found.append(place)
                least = place + self.s.of(v, "post", 1)
        return found

    def windows(self, v, fired):
        windows, end = [], 0
        for place in self.triggers(v, fired):
            windows.append((max(place - self.s.of(v, "pre"), end), end := place + self.s.of(v, "post", 1)))
        return windows

    def ring(self, v):
        if self.s.kind(v) != "circular" or self.is_settled(v):
            return []
        puts = self.puts(v)
        windows = self.windows(v, [it.fired for it in puts])
        end, preset, pre = windows[-1][1] if windows else 0, self.s.of(v, "preset"), self.s.of(v, "pre")
        if len(puts) < end or (preset and len(windows) == preset):
            return []
        return [it.array for it in puts[max(end, len(puts) - pre) :]]

    def unsaved(self, v):
        if self.s.kind(v) != "file":
            return []
        left = [it.array for it in self.puts(v)]
        for it in self.standing("save"):
            if it.node == v:
                left.remove(it.array)
        return left

    def group(self, v):
        return sum(it.node == v for it in self.standing("save")) // self.s.of(v, "count", 1)

    def is_due(self, v):
        if not self.unsaved(v):
            return False
        whole = (self.group(v) + 1) * self.s.of(v, "count", 1) <= len(self.puts(v))
        return self.s.of(v, "mode") != "capture" or whole or self.is_settled(v)

    def turn(self, v):
        children, turn = self.s.children(v), 0
        for before, it in zip(self.past, self.past[1:]):
            if before.kind == "emit" and before.node == v and it.kind in ("accept", "full"):
                turn = (children.index(it.node) + 1) % len(children)
        return turn

    def now(self):
        ticks = self.of("tick")
        return ticks[-1].tick if ticks else 0

    def is_settled(self, v):
        return any(it.node == v for it in self.of("settle"))

    def has_ended(self, v):
        return bool(self.of("close")) if v == 0 else self.is_settled(v)

    def has_room(self, v):
        return len(self.queued(v)) < self.s.of(v, "queue", 20)

    def acts(self, role):
        return role <= self.s.drain and not self.hand(role) and (not self.of("leave") or role == self.s.drain)

    # The pool account.

    def block_of(self, array):
        blocks = [it.block for it in self.standing("load", "takeblock") if ((0, it.index) if it.kind == "load" else (it.node, it.index)) == array]
        return blocks[-1] if blocks else None

    def placed(self):
        """The blocks that have a place."""
        arrays = [it for v in self.s.inner for it in self.queued(v) + [one for one, _ in self.waiting(v)] + self.ring(v) + self.unsaved(v)]
        arrays += [it.array for it in self.hands() if it.kind != "load"]
        return {self.block_of(it) for it in arrays} | {it.block for it in self.hands() if it.kind in ("load", "takeblock")}

    def known(self):
        """The known blocks, with their bytes, and the bytes that are held."""
        blocks = {}
        for place, it in enumerate(self.past):
            if it.kind in ("load", "takeblock") and it.fresh:
                before = Facts(self.s, self.past[:place]).placed() if it.given else set()
                for _ in range(it.given):
                    blocks.pop(max((b for b in blocks if b not in before), key=lambda b: (blocks[b], b)))
                blocks[it.block] = it.size
        return blocks

    def grant(self, need):
        """What the pool answers: what is held where it refuses, or the four numbers of a grant."""
        blocks, placed = self.known(), self.placed()
        held = sum(size for b, size in blocks.items() if b in placed)
        if self.s.limit and held + need > self.s.limit:
            return held, None
        free = {b: size for b, size in blocks.items() if b not in placed}
        fit = [(size, b) for b, size in free.items() if size >= need]
        if fit:
            return held, (min(fit)[1], min(fit)[0], 0, 0)
        given = 0
        while free and self.s.limit and sum(blocks.values()) + need > self.s.limit:
            largest = max(free, key=lambda b: (free[b], b))
            del free[largest], blocks[largest]
            given += 1
        return held, (next(b for b in range(len(blocks) + 1) if b not in blocks), need, 1, given)


# --- moves


def is_granted(f, e, need):
    return f.grant(need)[1] == (e.block, e.size, e.fresh, e.given) and e.regrown in (0, 1) and not (e.regrown and e.fresh)


def is_refused(f, e, need):
    held, granted = f.grant(need)
    return granted is None and (e.need, e.held) == (need, held)


def may_load(f, e):
    room = not f.s.waits or all(f.has_room(v) for v in f.s.children(0))
    return f.acts(e.role) and not any(it.kind == "load" for it in f.hands()) and e.index == f.next_index() < f.s.stack.frames and room


def may_take(f, e, is_maker):
    v = e.node
    if not f.s.is_node(v) or f.is_settled(v) or (f.s.kind(v) == "roi") != is_maker:
        return False
    return f.acts(e.role) and f.queued(v)[:1] == [e.array] and len(f.jobs(v)) < f.s.of(v, "threads", 1)


def may_put(f, e):
    held = f.hand(e.role)
    if not held or held.kind not in ("take", "takeblock") or held.node != e.node:
        return False
    name = (e.node, held.index) if f.s.kind(e.node) == "roi" else held.array
    return e.array == name and e.fired == int(f.s.kind(e.node) == "circular" and f.s.fires(e.node, e.index))


def may_settle(f, e):
    v = e.node
    return f.s.is_node(v) and not f.is_settled(v) and f.has_ended(f.s.nodes[v]["from"]) and not f.queued(v) and not f.jobs(v) and e.role <= f.s.drain


def may_save(f, e):
    v = e.node
    if not f.s.is_node(v) or f.s.kind(v) != "file" or f.hand(e.role) or e.role > f.s.drain:
        return False
    in_hand = any(it.kind == "save" and it.node == v for it in f.hands())
    return f.unsaved(v)[:1] == [e.array] and f.is_due(v) and not in_hand and e.group == f.group(v)


def is_piece(f, e):
    held = f.hand(e.role)
    return bool(held) and held.kind == "save" and (held.node, held.array) == (e.node, e.array)


def may_reclaim(f, e):
    return bool(f.hand(e.role)) and e.role < f.s.drain and not any(it.role == e.role for it in f.of("reclaim"))


FIRST = {
    "load": lambda f, e: may_load(f, e) and is_granted(f, e, f.s.bytes_of(0)),
    "loadrefused": lambda f, e: may_load(f, e) and is_refused(f, e, f.s.bytes_of(0)),
    "issue": lambda f, e: (held := f.hand(e.role)) is not None and held.kind == "load" and held.index == e.index,
    "take": lambda f, e: may_take(f, e, False),
    "takeblock": lambda f, e: may_take(f, e, True) and is_granted(f, e, f.s.bytes_of(e.node)),
    "pooldrop": lambda f, e: may_take(f, e, True) and is_refused(f, e, f.s.bytes_of(e.node)),
    "put": may_put,
    "settle": may_settle,
    "save": may_save,
    "saved": is_piece,
    "close": lambda f, e: not f.of("close") and f.next_index() == f.s.stack.frames and not any(it.kind == "load" for it in f.hands()) and e.role <= f.s.drain,
    "leave": lambda f, e: e.role <= f.s.drain and not any(it.role == e.role for it in f.of("leave")),
    "reclaim": may_reclaim,
}


class Move:
    """What must follow a first entry, worked out entry by entry."""

    def __init__(self, setting, past, tick):
        self.s, self.past, self.begin = setting, past, len(past)
        self.follow(past[-1], tick)

    def facts(self):
        return Facts(self.s, self.past)

    def add(self, kind, v, array, **more):
        self.past.append(Entry(kind, node=v, maker=array[0], index=array[1], **more))

    def emission(self, v, array, why):
        self.add("emit", v, array, why=why)
        children = self.s.children(v)
        if v and self.s.kind(v) == "scatter":
            turn = self.facts().turn(v)
            inturn = children[turn:] + children[:turn]
            room = [w for w in inturn if self.facts().has_room(w)]
            children = room[:1] or inturn[:1]
        for w in children:
            self.add("accept" if self.facts().has_room(w) else "full", w, array)

    def look(self, v):
        while waits := self.facts().waiting(v):
            array, since = waits[0]
            if self.facts().keeps_step(v, array[1]):
                self.emission(v, array, "step")
            elif self.facts().now() - since > self.s.of(v, "sort_time", 100):
                self.emission(v, array, "late")
            else:
                return

    def follow(self, e, tick):
        if e.kind in ("load", "loadrefused"):
            self.past.append(Entry("tick", tick=tick))
            for v in self.s.inner:
                if self.s.is_sorted(v):
                    self.look(v)
        elif e.kind == "issue":
            self.emission(0, (0, e.index), "plain")
        elif e.kind == "put":
            self.follow_put(e)
        elif e.kind == "settle":
            for array, _ in self.facts().waiting(e.node):
                self.emission(e.node, array, "flush")

    def follow_put(self, e):
        v, before = e.node, Facts(self.s, self.past[:-1])
        if self.s.kind(v) == "circular":
            fired = [it.fired for it in self.facts().puts(v)]
            place = len(fired) - 1
            if place in before.triggers(v, fired):
                for array in before.ring(v):
                    self.emission(v, array, "ring")
            if any(start <= place < end for start, end in before.windows(v, fired)):
                self.emission(v, e.array, "now")
        elif self.s.is_sorted(v):
            if before.keeps_step(v, e.index):
                self.emission(v, e.array, "step")
            elif len(before.waiting(v)) >= self.s.of(v, "sort"):
                self.add("sortdrop", v, e.array)
            self.look(v)
        elif self.s.kind(v) != "file":
            self.emission(v, e.array, "plain")


def is_finished(f):
    left = f.hands() + [it for v in f.s.inner for it in f.queued(v) + f.waiting(v) + f.ring(v) + f.unsaved(v)]
    return bool(f.of("close")) and f.next_index() == f.s.stack.frames and all(f.is_settled(v) for v in f.s.inner) and not left


def verdict(setting, log):
    """`finished`, `unfinished` or `entry N` of a list of entries."""
    past = []
    while len(past) < len(log):
        first = log[len(past)]
        if first.kind not in FIRST or not FIRST[first.kind](Facts(setting, past), first):
            return f"entry {len(past) + 1}"
        tick = log[len(past) + 1] if len(past) + 1 < len(log) else None
        if first.kind in ("load", "loadrefused") and tick and (tick.kind != "tick" or tick.tick < Facts(setting, past).now()):
            return f"entry {len(past) + 2}"
        move = Move(setting, past + [first], tick.tick if tick and tick.kind == "tick" else 0)
        for place in range(move.begin, len(move.past)):
            if place == len(log):
                return "unfinished"
            if move.past[place].line() != log[place].line():
                return f"entry {place + 1}"
        past = move.past
    return "finished" if is_finished(Facts(setting, past)) else "unfinished"


def main(graph, stack, log):
    setting = Setting(graph, Stack(stack))
    with open(log, encoding="ascii") as file:
        lines = file.read().split("\n")[:-1]
    print(verdict(setting, [Entry.read(it) for it in lines]))


if __name__ == "__main__":
    main(*sys.argv[1:])
