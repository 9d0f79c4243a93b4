#!/usr/bin/env python3
"""refused.py PROGRAM [memory] [calls]: runs the commands below over a small stack and has each allocation, or each call of the system, refused in
turn. What each run then leaves is compared with what docs/statuses.md says of the status that it ended with; of run-log the log and the
files have to pass check, too, and how often each role left, and how often its hand was taken back, is counted. Prints counts by command
and status, and each run that left something else; then it ends with 1. For memory it wants gcc, for calls strace."""
import collections, os, pathlib, re, subprocess, sys, tempfile

GRAPH = """[run]
feed = "wait"

[[node]]
name = "half"
kind = "roi"
input = "driver"
bin = [2, 2]
queue = 8
threads = 2
sort = 64
sort_time = 2147483647

[[node]]
name = "st"
kind = "stats"
input = "half"
queue = 64
threads = 2
sort = 64
sort_time = 2147483647
hist_size = 4
profiles = true

[[node]]
name = "late"
kind = "circular"
input = "driver"
queue = 64
trigger = "1"
preset = 2
post = 2

[[node]]
name = "cap"
kind = "file"
input = "st"
queue = 64
mode = "stream"
count = 4

[[node]]
name = "one"
kind = "file"
input = "late"
queue = 64
mode = "single"
"""

COMMANDS = {
    "copy": "copy s.nc copied_",
    "info": "info s.nc",
    "gen": "gen 3 4 4 UInt16 7 made.nc",
    "plain": "plain g.toml s.nc p_",
    "run": "run g.toml s.nc r_",
    "run-log": "run-log g.toml s.nc l_",
    "watch": "watch g.toml s.nc w_",
    "demo": "demo 3",
    "orient": "orient 5 s.nc turned.nc",
    "correct": "correct s.nc s.nc corrected.nc 3 1 1 0 255",
    "series": "series 4 0,0,4,4;4,2,4,4 s.nc series.txt",
    "check": "check g.toml s.nc c_log.txt c_",
}
SECONDS = 60
CALLS = [
    ("openat", "EACCES"), ("openat", "EMFILE"), ("read", "EIO"), ("read", "EINTR"), ("pread64", "EIO"), ("write", "ENOSPC"), ("write", "EINTR"),
    ("pwrite64", "ENOSPC"), ("lseek", "EIO"), ("fsync", "EIO"), ("fdatasync", "EIO"), ("close", "EIO"), ("fstat", "EIO"), ("newfstatat", "EIO"),
    ("statx", "EIO"), ("ftruncate", "EIO"), ("mmap", "ENOMEM"), ("mprotect", "ENOMEM"), ("clone3", "EAGAIN"),
    ("sched_getaffinity", "EINVAL"),
]


class Left:
    """What a run left: its status, what it printed, and its files."""

    def __init__(self, folder, ended, given):
        self.status = "hung" if ended is None else ended.returncode
        # how far a watched run had come is another text at each run, too
        lines = [] if ended is None else ended.stdout.splitlines(keepends=True)
        self.printed = b"".join(line for line in lines if not line.startswith(b"seen "))
        self.told = b"" if ended is None else ended.stderr
        self.files = {p.name: p.read_bytes() for p in folder.iterdir() if p.name not in given}
        # its text is another one at each run
        self.log = self.files.pop("l_log.txt", b"")


def is_front(front, whole):
    """Whether the bytes are a front of a file, whose number of records (bytes 4 to 7 of a netCDF file) may be open."""
    opened = whole[:4] + b"\xff" * 4 + whole[8:]
    return whole.startswith(front) or (whole[:3] == b"CDF" and opened.startswith(front))


def fault(left, whole):
    """What is wrong with what a run left, beside the run without a refusal; or None."""
    strange = set(left.files) - set(whole.files)
    if strange:
        return f"files of no command: {sorted(strange)}"
    cut = [n for n, b in left.files.items() if not is_front(b, whole.files[n])]
    if cut:
        return f"no front of its file: {cut}"
    if left.status == 0:
        whole_log = left.log.endswith(b"\n") == whole.log.endswith(b"\n")
        return None if whole_log and (left.files, left.printed) == (whole.files, whole.printed) else "status 0, and something is missing"
    if left.status in (1, 2, 3, 4, 5, 6):
        return "a refusal that left something" if left.files or left.printed else None
    if left.status in (7, 9):
        return "it printed" if left.printed else None
    if left.status == 8:
        same = left.files == whole.files
        return None if same and whole.printed.startswith(left.printed) and left.printed != whole.printed else "not what status 8 says"
    return "it hung" if left.status == "hung" else f"ended with {left.status}: {left.told.decode(errors='replace')[-200:]}"


class Trials:
    def __init__(self, program):
        self.program = str(pathlib.Path(program).resolve())
        self.work = pathlib.Path(tempfile.mkdtemp())
        (self.work / "g.toml").write_text(GRAPH)
        subprocess.run([self.program, "gen", "6", "8", "6", "UInt8", "1", "s.nc"], cwd=self.work, check=True)
        subprocess.run([self.program, "run-log", "g.toml", "s.nc", "c_"], cwd=self.work, check=True, capture_output=True)
        self.given = {it.name: it.read_bytes() for it in self.work.iterdir()}
        self.bad = 0
        # how often a role left, and how often its hand was taken back
        self.ended = collections.Counter()

    def run(self, words, around=(), more=None):
        with tempfile.TemporaryDirectory(dir=self.work) as name:
            folder = pathlib.Path(name)
            for n, b in self.given.items():
                (folder / n).write_bytes(b)
            try:
                ended = subprocess.run([*around, self.program, *words.split()], cwd=folder, capture_output=True, timeout=SECONDS, env={**os.environ, **(more or {})})
            except subprocess.TimeoutExpired:
                ended = None
            return Left(folder, ended, self.given)

    def is_checked(self, left):
        """Whether check says yes of the log and the files that run-log left."""
        with tempfile.TemporaryDirectory(dir=self.work) as name:
            folder = pathlib.Path(name)
            for n, b in [*self.given.items(), *left.files.items(), ("l_log.txt", left.log)]:
                (folder / n).write_bytes(b)
            words = [self.program, "check", "g.toml", "s.nc", "l_log.txt", "l_"]
            ended = subprocess.run(words, cwd=folder, capture_output=True, timeout=SECONDS)
            return (ended.returncode, ended.stdout) == (0, b"yes\n")

    def judge(self, command, what, left, whole, seen):
        seen[left.status] += 1
        wrong = fault(left, whole)
        if command == "run-log" and left.status == 0 and not wrong:
            wrong = None if self.is_checked(left) else "check doesn't say yes"
            self.ended.update(re.findall(rb"^(?:leave|reclaim) \d+$", left.log, re.M))
        if wrong:
            self.bad += 1
            print(f"  {command}, {what}: status {left.status}: {wrong}", flush=True)

    def memory(self):
        library = self.work / "refused.so"
        source = pathlib.Path(__file__).with_name("refused.c")
        subprocess.run(["gcc", "-O2", "-shared", "-fPIC", "-o", library, source], check=True)
        for command, words in COMMANDS.items():
            whole = self.run(words)
            counted = self.work / "counted"
            hooked = {"LD_PRELOAD": str(library)}
            self.run(words, more={**hooked, "ND_COUNTED": str(counted)})
            count = int.from_bytes(counted.read_bytes(), sys.byteorder)
            for label, extra in (("allocation", {}), ("all allocations from", {"ND_FROM": "1"})):
                seen = collections.Counter()
                for number in range(1, count + 1):
                    left = self.run(words, more={**hooked, **extra, "ND_REFUSED": str(number)})
                    self.judge(command, f"{label} {number}", left, whole, seen)
                tell(command, f"{count} allocations{' from one on' if extra else ''}", seen)

    def calls(self):
        for command, words in COMMANDS.items():
            whole = self.run(words)
            counts = self.counted(words)
            for call, error in CALLS:
                seen = collections.Counter()
                first, last = counts.get(call, (0, 0))
                for number in range(first + 1, last + 1):
                    around = ["strace", "-f", "-qq", "-o", "/dev/null", "-e", f"trace={call}", "-e", f"inject={call}:error={error}:when={number}"]
                    self.judge(command, f"{call} {number} {error}", self.run(words, around), whole, seen)
                if seen:
                    tell(command, f"{call} {error}", seen)

    def counted(self, words):
        """How often each call is made in one thread, at most: before the program's own first one, and in all."""
        log = self.work / "trace"
        self.run(words, ["strace", "-f", "-qq", "-o", str(log)])
        counts, own = collections.defaultdict(collections.Counter), None
        loader = collections.Counter()
        for line in log.read_text(errors="replace").splitlines():
            thread, call = re.match(r"(\d+) +(?:<\.\.\. )?(\w+)", line).groups()
            own = own or thread
            if "resumed>" in line:
                continue
            counts[thread][call] += 1
            if thread == own and call == "munmap" and not loader:
                loader = counts[thread].copy()
        calls = {call for seen in counts.values() for call in seen}
        return {call: (loader[call], max(seen[call] for seen in counts.values())) for call in calls}


def tell(command, what, seen):
    print(f"{command}, {what}: " + ", ".join(f"{n} with status {s}" for s, n in sorted(seen.items(), key=str)), flush=True)


if __name__ == "__main__":
    trials = Trials(sys.argv[1])
    parts = sys.argv[2:] or ["memory", "calls"]
    for part in parts:
        {"memory": trials.memory, "calls": trials.calls}[part]()
    for entry, count in sorted(trials.ended.items()):
        print(f"{entry.decode()}: in {count} runs that finished")
    print(f"{trials.bad} left something else")
    sys.exit(trials.bad > 0)
