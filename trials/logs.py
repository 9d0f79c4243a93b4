#!/usr/bin/env python3
"""Runs a built program over random graphs and stacks, and reads each log twice, by the rules of docs/history.md and by the program's `check`:
logs.py PROGRAM [RUNS] [SEED]

Each log has to be `finished`, and each front of it `unfinished`. Of each log some lines are left out, doubled or exchanged with the next one, and some
numbers are raised or lowered. Both have to read each of these logs alike, down to the number of the entry, and the answers are counted. It ends with 1 at the
first log that isn't read so, which it leaves in the folder that it names."""

import random
import struct
import subprocess
import sys
import tempfile
from collections import Counter
from pathlib import Path

from history import Entry, Setting, Stack, verdict


def words(*numbers):
    return struct.pack(f">{len(numbers)}i", *numbers)


def name(text):
    return words(len(text)) + text.encode().ljust(-(-len(text) // 4) * 4, b"\0")


def stack_bytes(ids, flags, width, height):
    """A stack of bytes with ids and a whole attribute, Flag, over a record dimension."""
    dims = [("frame", 0), ("y", height), ("x", width)]
    variables = [("array_data", [0, 1, 2], 1, width * height), ("uniqueId", [0], 4, 4), ("Attr_Flag", [0], 4, 4)]
    pad = lambda size: -(-size // 4) * 4
    head = lambda begin: (
        b"CDF\1" + words(len(ids), 10, len(dims)) + b"".join(name(n) + words(size) for n, size in dims) + words(0, 0, 11, len(variables))
        + b"".join(
            name(n) + words(len(over), *over) + words(0, 0, kind, pad(size)) + words(begin + sum(pad(s) for *_, s in variables[:at]))
            for at, (n, over, kind, size) in enumerate(variables)
        )
    )
    body = b"".join(bytes([k % 251] * (width * height)).ljust(pad(width * height), b"\0") + words(it, flags[k]) for k, it in enumerate(ids))
    return head(len(head(0))) + body


def random_ids(dice, frames):
    ids, at = [], dice.randrange(4)
    for _ in range(frames):
        at += dice.choice([1, 1, 1, 1, 2, 3, 0])
        ids.append(at)
    if dice.random() < 0.3:
        dice.shuffle(ids)
    return ids


def random_graph(dice, size):
    """A graph of up to five nodes, with tight queues, pools and sort lists."""
    lines = ["[run]", f'feed = "{dice.choice(["free", "wait"])}"']
    if dice.random() < 0.5:
        lines.append(f"pool = {dice.randrange(1, 12) * size}")
    feeds = ["driver"]
    for number in range(dice.randrange(1, 6)):
        kind = dice.choice(["roi", "stats", "circular", "file", "file", "scatter"])
        lines += ["[[node]]", f'name = "n{number}"', f'kind = "{kind}"', f'input = "{dice.choice(feeds)}"', f"queue = {dice.choice([1, 2, 3, 20])}"]
        if kind in ("roi", "stats"):
            lines += [f"threads = {dice.randrange(1, 4)}", f"sort = {dice.choice([0, 1, 2, 10])}", f"sort_time = {dice.choice([0, 1, 100])}"]
        if kind == "roi":
            lines += [f"bin = [{dice.randrange(1, 3)}]", f'type = "{dice.choice(["UInt8", "UInt16", "Int32"])}"']
        if kind == "circular":
            lines += [f"pre = {dice.randrange(4)}", f"post = {dice.randrange(1, 4)}", f"preset = {dice.randrange(3)}", 'trigger = "A > 2"', 'a = "Flag"']
        if kind == "file":
            mode = dice.choice(["single", "capture", "stream"])
            lines += [f'mode = "{mode}"', f"count = {1 if mode == 'single' else dice.randrange(1, 4)}"]
        else:
            feeds.append(f"n{number}")
    return "\n".join(lines) + "\n"


def changed(dice, lines):
    """The lines of a log with one change."""
    at, change = dice.randrange(len(lines)), dice.choice(["leave", "double", "exchange", "number"])
    if change == "leave":
        return lines[:at] + lines[at + 1 :]
    if change == "double":
        return lines[: at + 1] + lines[at:]
    if change == "exchange":
        return lines[:at] + lines[at : at + 2][::-1] + lines[at + 2 :]
    parts = lines[at].split(" ")
    digits = [place for place, part in enumerate(parts) if part.isdigit()]
    place = dice.choice(digits)
    parts[place] = str(max(0, int(parts[place]) + dice.choice([-1, 1])))
    return lines[:at] + [" ".join(parts)] + lines[at + 1 :]


def read(setting, lines):
    try:
        return verdict(setting, [Entry.read(it) for it in lines])
    except (KeyError, ValueError, IndexError):
        return "no log"


def checked(program, room, lines):
    """What `check` says of a log of these lines, in the words of history.py. Files that are those of another run are no fault of the log."""
    (room / "changed.txt").write_text("".join(f"{it}\n" for it in lines))
    words = [program, "check", "graph.toml", "stack.nc", "changed.txt", "x_"]
    run = subprocess.run(words, cwd=room, capture_output=True, text=True, check=False)
    answer = run.stderr.removeprefix("nd_replay: ").split()
    if run.returncode == 12:
        return " ".join(answer[3:]).lower()
    return {0: "finished", 6: "finished", 11: "no log", 13: "finished"}.get(run.returncode, f"status {run.returncode}")


def main(program, runs="100", seed="1"):
    program, seen, room = Path(program).resolve(), Counter(), Path(tempfile.mkdtemp(prefix="logs-"))
    for number in range(int(runs)):
        dice = random.Random(f"{seed} {number}")
        width, height, frames = dice.randrange(1, 5), dice.randrange(1, 4), dice.randrange(8)
        flags = [dice.randrange(5) for _ in range(frames)]
        (room / "stack.nc").write_bytes(stack_bytes(random_ids(dice, frames), flags, width, height))
        (room / "graph.toml").write_text(random_graph(dice, width * height))
        words = [program, "run-log", "graph.toml", "stack.nc", "x_"]
        run = subprocess.run(words, cwd=room, capture_output=True, text=True, check=False)
        assert run.returncode == 0, (room, run.stderr)
        lines = (room / "x_log.txt").read_text().split("\n")[:-1]
        setting = Setting(room / "graph.toml", Stack(room / "stack.nc"))
        fronts = [lines[:count] for count in dice.sample(range(len(lines)), min(10, len(lines)))]
        others = [changed(dice, lines) for _ in range(5)]
        for log in [lines, *fronts, *others]:
            answer, also = read(setting, log), checked(program, room, log)
            wanted = {id(lines): "finished"} | {id(it): "unfinished" for it in fronts}
            if answer != also or answer != wanted.get(id(log), answer):
                print(f"run {number}: {answer} by the rules, {also} by the program; it stands in {room}")
                return 1
            seen[f"{'a log' if log is lines else 'a front' if log in fronts else 'a changed log'} is {answer.split(' ')[0]}"] += 1
        seen["entries"] += len(lines)
        for old in room.iterdir():
            old.unlink()
    room.rmdir()
    print(", ".join(f"{what}: {count}" for what, count in sorted(seen.items())))
    return 0


if __name__ == "__main__":
    sys.exit(main(*sys.argv[1:]))
