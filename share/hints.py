"""What nd_replay's script says beside the program's own lines, on standard output:

    hints.py refusal LINE COMMAND NAME=WORD ..       what can be done after the status that LINE tells
    hints.py losses REPORT COMMAND NAME=WORD ..      what a run lost by its report, and what keeps it
    hints.py threads ROOM COMMAND NAME=WORD ..       that a run had too few threads, where so many could be started when it began
    hints.py time CALLED COMMAND NAME=WORD ..        how long a trial build takes for a stack
    hints.py files PREFIX COMMAND NAME=WORD ..       the first file of each node of a graph that writes; of a check each file that is compared; each
                                                     name ended by 00

COMMAND is the program's command, and NAME=WORD are its words, each under the name that the help has for it. What a key of a graph may be is read from the
tables of docs/graph.md."""

import difflib
import math
import os
import re
import shlex
import struct
import sys
import tomllib

ROOT = os.path.dirname(os.path.dirname(os.path.realpath(__file__)))
KINDS = ("roi", "stats", "circular", "file", "scatter")
KINDS_OF_ONE_THREAD = ("circular", "file", "scatter")
WIDTHS_OF_SAMPLES = {"Int8": 1, "UInt8": 1, "Int16": 2, "UInt16": 2, "Int32": 4, "UInt32": 4}
WIDTHS = {1: 1, 2: 1, 3: 2, 4: 4, 5: 4, 6: 8}
WHOLE_TYPES = (1, 3, 4)
ATTR = "Attr_"
TYPES = {1: "byte", 2: "char", 3: "short", 4: "int", 5: "float", 6: "double"}
TYPES_OF_DETECTORS = {6: "Int64", 7: "UInt64", 8: "Float32", 9: "Float64"}
SECONDS_OF_BYTE = {"copy": 2e-7, "info": 2e-7}
SECONDS_OF_BYTE_AT_NODE = 4e-6
LEAST_TIME = 2
LONGEST_STACK, LONGEST_GRAPH, LONGEST_LOG = 1_073_741_824, 1_048_576, 536_870_912
LONGEST_FILES = {1: 2_147_483_647, 2: 8_589_934_592}
MOST_GENERATED, MOST_REGIONS = 536_870_912, 32
MOST_ARRIVALS, MOST_KEPT, LONGEST_QUEUE = 1_048_576, 67_108_864, 65_535
LONGEST_TRIGGER, MOST_OPEN = 256, 32
BYTES_OF_FRAME, BYTES_OF_ATTRIBUTE, MOST_HEADS = 64, 32, 4_294_967_296


said = []


def printable(text):
    """Returns a text with each control character as its number."""
    return "".join(it if it.isprintable() else f"\\u{{{ord(it):x}}}" for it in text)


def say(words):
    said.append(words)
    print(f"nd_replay: {printable(words)}")


class Call:
    """The command that was called, and its words by their names; a word that it hasn't is empty."""

    def __init__(self, command, *words):
        self.command, self.words = command, dict(it.split("=", 1) for it in words)

    def __getitem__(self, name):
        return self.words.get(name, "")

    def order(self):
        return f"the words of {self.command} are {' '.join(self.words)}"


def near(word, words):
    found = [it for it in words if it.lower() == word.lower()] or difflib.get_close_matches(word, words, 1, 0.6)
    return f" (did you mean {found[0]}?)" if found else ""


# --- words


def number(digits, least, most):
    """Returns what a word fits that is a whole number between bounds, and what is said of it."""
    form = re.compile(f"{'-?' if least < 0 else ''}[0-9]{{1,{digits}}}")
    fits = lambda word: form.fullmatch(word) and least <= int(word) <= most
    return fits, f"a whole number from {least:,} to {most:,}, in at most {digits} digit{'s' if digits > 1 else ''}"


WHOLE = number(10, -(2**31), 2**31 - 1)
SIDE = number(8, 0, 67_108_864)
FORMS = {
    "gen": {
        "N": number(10, 0, 65_536),
        "W": number(10, 1, 8_192),
        "H": number(10, 1, 8_192),
        "KIND": (WIDTHS_OF_SAMPLES.__contains__, ", ".join(WIDTHS_OF_SAMPLES)),
        "START": number(10, 0, 2**31 - 1),
    },
    "demo": {"N": number(4, 1, 4_096)},
    "orient": {"MODE": number(1, 0, 7)},
    "correct": {"OFFSET": WHOLE, "NUM": WHOLE, "DEN": number(10, 1, 2**31 - 1), "LOW": WHOLE, "HIGH": WHOLE},
    "series": {"LENGTH": number(4, 1, 4_096)},
}


def tell_regions(word):
    """Says which part of a word isn't a region of a series."""
    groups = word.split(";")
    if len(groups) > MOST_REGIONS:
        return say(f"REGIONS has {len(groups)} regions, and at most {MOST_REGIONS} are measured")
    fits, what = SIDE
    for count, group in enumerate(groups, 1):
        numbers = group.split(",")
        if len(numbers) != 4 or not all(map(fits, numbers)):
            return say(f"region {count} of REGIONS, {shlex.quote(group)}, isn't X,Y,W,H, of which each is {what}; a ; stands between regions")
    return None


def tell_words(call):
    """Says which word isn't spelled as its command takes it."""
    for name, word in call.words.items():
        try:
            word.encode()
        except UnicodeEncodeError:
            return say(f"{name} isn't text in UTF-8")
    for name, (fits, what) in FORMS.get(call.command, {}).items():
        word = call[name]
        if not fits(word):
            hint = near(word, WIDTHS_OF_SAMPLES) if name == "KIND" else ""
            return say(f"{name} = {shlex.quote(word)} isn't allowed{hint}; {name} may be {what}; {call.order()}")
    if call.command == "series":
        return tell_regions(call["REGIONS"])
    if call.command == "correct" and int(call["LOW"]) > int(call["HIGH"]):
        return say(f"LOW = {call['LOW']} is above HIGH = {call['HIGH']}")
    return None


# --- graphs


def read_keys():
    """Returns, for each heading of the tables of keys in docs/graph.md, the keys with their values and defaults."""
    tables, heading = {}, None
    with open(f"{ROOT}/docs/graph.md", encoding="utf-8") as file:
        for line in file:
            if line.startswith("#"):
                heading = line.strip("# \n")
            plain = re.sub(r"\[([^]]*)\]\(([^)#]*)[^)]*\)", r"\1 (docs/\2)", line.replace("\\|", "or").replace("`", ""))
            cells = [it.strip() for it in plain.strip().strip("|").split("|")]
            if heading and line.startswith("|") and len(cells) == 3 and cells[0] != "Key" and not cells[0].startswith("-"):
                for key in cells[0].split(", "):
                    tables.setdefault(heading, {})[key] = cells[1:]
    return tables


def keys_of(kind):
    """Returns the keys that the table of a node of this kind may have."""
    found = {}
    for heading, keys in read_keys().items():
        if heading == "Every node" or kind in heading.replace(",", "").split():
            found.update(keys)
    return found


def may_be_graph(name):
    """Returns whether a graph may be read from a name: a file, and no longer than one."""
    return os.path.isfile(name) and os.path.getsize(name) <= LONGEST_GRAPH


class Graph:
    """A graph's text, its tables, and the lines at which they stand."""

    def __init__(self, name):
        with open(name, "rb") as file:
            self.name, self.text = name, file.read().decode("utf-8-sig")
        self.tables = tomllib.loads(self.text)
        nodes = self.tables.get("node", [])
        self.nodes = [it for it in nodes if isinstance(it, dict)] if isinstance(nodes, list) else []
        run = self.tables.get("run", {})
        self.run = run if isinstance(run, dict) else {}

    def line_of(self, number, key=None):
        """Returns the line of a key in the table of a node, from 1, or of the run, 0; or of that table; or none."""
        at, table = 0, None
        for count, line in enumerate(self.text.splitlines(), 1):
            header = re.match(r"\s*(\[\[\s*node\s*\]\]|\[)", line)
            if header:
                at += header[1] != "["
                table = at if header[1] != "[" else 0 if re.match(r"\s*\[\s*run\s*\]", line) else None
                if table == number and key is None:
                    return count
            elif table == number and key and re.match(rf"\s*([\"']?){re.escape(key)}\1\s*=", line):
                return count
        return None

    def place(self, number, key=None):
        """Returns words for a node, or for the table of the run, and for the line where it can be told."""
        line = self.line_of(number, key) or self.line_of(number)
        words = f"line {line} of {self.name}" if line else self.name
        if number == 0:
            return f"{words}, under [run]"
        name = self.nodes[number - 1].get("name")
        return f"{words}, node {name}" if isinstance(name, str) else f"{words}, node {number} (it has no name)"

    def spots(self, key):
        """Yields the numbers of the tables that have the key, with its value."""
        if key in self.run:
            yield 0, self.run[key]
        for number, node in enumerate(self.nodes, 1):
            if key in node:
                yield number, node[key]

    def values(self, number, key):
        """Returns what a key may be at a node, or under run, by the page on graphs."""
        keys = read_keys().get("run", {}) if number == 0 else keys_of(self.nodes[number - 1].get("kind"))
        return keys.get(key, [None])[0]


def spelled(value):
    """Returns a value as a graph's text has it."""
    if isinstance(value, bool):
        return str(value).lower()
    if isinstance(value, list):
        return f"[{', '.join(map(spelled, value))}]"
    return f'"{value}"' if isinstance(value, str) else str(value)


def is_of_form(value, values):
    """Returns whether a value has the form that the page on graphs gives its key."""
    if "true" in values and "false" in values:
        fits = lambda it: isinstance(it, bool)
    elif re.search(r'"|text|letters|names|expression', values):
        words = re.findall(r'"([^"]+)"', values)
        fits = lambda it: isinstance(it, str) and (not words or it in words or not values.startswith('"') or "the name of" in values)
        if "letters" in values:
            fits = lambda it: isinstance(it, str) and re.fullmatch("[A-Za-z][A-Za-z0-9_]{0,31}", it) and it != "driver"
    else:
        fits = lambda it: isinstance(it, int) and not isinstance(it, bool)
    if "list" in values:
        return isinstance(value, list) and all(map(fits, value))
    return bool(fits(value))


def as_given(key):
    """Returns a key as the graph has it, for one whose backslashes and control characters are escaped."""
    return re.sub(r"\\(?:\\|u\{([0-9a-f]+)\})", lambda it: chr(int(it[1], 16)) if it[1] else "\\", key)


def tell_unknown_key(graph, shown):
    key = as_given(shown)
    top = [it for it in graph.tables if it not in ("run", "node")]
    if key in top:
        is_table = isinstance(graph.tables[key], (dict, list))
        place = "the tables are [run] and [[node]]" if is_table else "a key of a node stands below a line [[node]], and one of the run below [run]"
        return say(f"{graph.name}: {shown} is no table of a graph: {place}{near(key, ['run', 'node'])}")
    for number, table in enumerate([graph.run, *graph.nodes]):
        kind = table.get("kind")
        known = read_keys().get("run", {}) if number == 0 else keys_of(kind)
        if key in table and key not in known:
            if number > 0 and key in read_keys().get("run", {}):
                return say(f"{graph.place(number, key)}: {shown} is no key of a node: it stands under a line [run]")
            others = [it for it in KINDS if key in keys_of(it)]
            if number == 0 and len(others) == len(KINDS):
                return say(f"{graph.place(number, key)}: {shown} is no key of [run]: it stands under a line [[node]]")
            hint = f", only {' and '.join(others)} nodes have it" if others else near(key, known)
            of = "[run]" if number == 0 else f"a {kind} node"
            return say(f"{graph.place(number, key)}: {of} has no key {shown}{hint}; it may have {', '.join(known)}")
    return None


def tell_missing(graph, key):
    for number, node in enumerate(graph.nodes, 1):
        values, default = keys_of(node.get("kind")).get(key, [None, ""])
        if key not in node and default == "has to be given":
            return say(f"{graph.place(number)}: {key} has to be given; it may be {values}")
    return None


def tell_form(graph, key):
    if key in ("run", "node") and key in graph.tables:
        return say(f"{graph.name}: {key} is {'one table, [run]' if key == 'run' else 'a list of tables, [[node]] each'}")
    for number, value in graph.spots(key):
        values = graph.values(number, key)
        if values and not is_of_form(value, values):
            has_float = any(isinstance(it, float) for it in (value if isinstance(value, list) else [value]))
            whole = "; whole numbers are written without a point and an exponent" if has_float else ""
            hint = near(value, re.findall(r'"([^"]+)"', values)) if isinstance(value, str) else ""
            return say(f"{graph.place(number, key)}: {key} = {spelled(value)} isn't allowed{hint}; {key} may be {values}{whole}")
    return None


def tell_range(graph, key, value):
    if key == "node":
        return say(f"{graph.name}: there are {value} nodes, and a graph has at most 32")
    for number, given in graph.spots(key):
        node = graph.nodes[number - 1] if number else graph.run
        if key == "count" and node.get("mode") == "single" and given != 1:
            return say(f'{graph.place(number, key)}: mode = "single" writes one array a file, so count is 1; mode = "capture" or "stream" takes more')
        if key == "hist_hi" and node.get("hist_size") and node.get("hist_lo", 0) >= given:
            return say(f"{graph.place(number, key)}: hist_hi = {given} has to be above hist_lo = {node.get('hist_lo', 0)}")
        # a value that is allowed at this node is at fault at another one
        fits = key == "count" and 1 <= value <= 65_536 or key == "hist_hi" and -(2**31) <= value < 2**32
        if fits or isinstance(given, list) and 0 <= value < 2**31 and len(given) != value:
            continue
        if isinstance(given, list) and len(given) == value and len(given) > 10:
            return say(f"{graph.place(number, key)}: {key} has {value} items, and an array at most 10 dimensions")
        if given == value or isinstance(given, list) and value in given:
            return say(f"{graph.place(number, key)}: {key} = {spelled(given)} is out of range; {key} may be {graph.values(number, key)}")
    if key == "threads":
        return say(f"{graph.name}: its nodes have {value} threads in all, and a graph at most 64")
    for number, node in enumerate(graph.nodes, 1):
        if key == "hist_hi" and node.get("hist_size") and node.get("hist_lo", 0) >= value:
            return say(f"{graph.place(number, 'hist_lo')}: hist_lo = {node.get('hist_lo', 0)} has to be below hist_hi, which is {value} where it isn't given")
    return None


def faulty_triggers(graph, fault, at):
    """Returns the triggers that may have a fault, each behind its node's number."""
    may = {
        "TooLong": lambda text: len(text.encode()) > LONGEST_TRIGGER,
        "TooDeep": lambda text: sum(map(text.count, "(!-")) > MOST_OPEN,
        "Unexpected": lambda text: len(text.encode()) >= at,
    }[fault]
    return [(number, it) for number, it in graph.spots("trigger") if isinstance(it, str) and may(it)]


def tell_trigger(graph, words):
    at = int(words[1]) if words[0] == "Unexpected" else None
    triggers = faulty_triggers(graph, words[0], at)
    allowed = f"A, B, whole numbers up to {2**63 - 1:,}, parentheses, and || && == != < <= > >= + - * !"
    if len(triggers) > 1 and words[0] != "TooLong":
        place = f"more than {MOST_OPEN} parentheses and signs are open at once in" if at is None else f"at place {at} (from 0) of"
        lines = ", ".join(str(graph.line_of(number, "trigger")) for number, _ in triggers)
        return say(f"{place} one of the triggers at the lines {lines}: a trigger may have {allowed}")
    number, text = triggers[0]
    what = f"the trigger has more than {LONGEST_TRIGGER} bytes" if words[0] == "TooLong" else f"more than {MOST_OPEN} parentheses and signs are open at once"
    if at is not None:
        what = f"in the trigger {text!r} what stands at place {at}, {text[at:at + 8]!r}, isn't expected there"
        if at >= len(text):
            what = f"the trigger {text!r} ends too early"
    return say(f"{graph.place(number, 'trigger')}: {what}; it may have {allowed}")


def tell_node(graph, fault, number):
    node, names = graph.nodes[number - 1], ["driver", *[str(it.get("name")) for it in graph.nodes]]
    if fault == "UnknownKind":
        kind = node.get("kind")
        return say(f"{graph.place(number, 'kind')}: kind = {spelled(kind)} isn't allowed{near(str(kind), KINDS)}; kind may be {keys_of('roi')['kind'][0]}")
    if fault == "Threads":
        return say(f"{graph.place(number, 'threads')}: a {node.get('kind')} node has one thread: leave threads out there")
    if fault == "DoubleName":
        return say(f"{graph.place(number, 'name')}: an earlier node has this name; a name stands for one node")
    if fault == "UnknownInput":
        given = str(node.get("input"))
        if given in names:
            return say(f"{graph.place(number, 'input')}: {given} is a file node, which passes nothing on")
        fed = [it.get("name") for it in graph.nodes if it.get("kind") != "file" and it is not node]
        return say(f"{graph.place(number, 'input')}: no node is named {shlex.quote(given)}{near(given, fed)}; the input may be {', '.join(['driver', *fed])}")
    return say(f"{graph.place(number, 'input')}: from input to input it never comes to the driver: one of them has to have input = \"driver\"")


def tell_graph_rule(graph, words):
    fault, *rest = words
    if fault == "UnknownKey":
        return tell_unknown_key(graph, " ".join(rest))
    if fault == "KeyType":
        return tell_form(graph, " ".join(rest))
    if fault == "Missing":
        return tell_missing(graph, rest[0])
    if fault == "Range":
        return tell_range(graph, rest[0], int(rest[1]))
    if fault == "Calc":
        return tell_trigger(graph, rest)
    return tell_node(graph, fault, int(rest[0]))


TOML_FORMS = 'a line is a table, as [run], or a node, as [[node]], or a key with its value, as queue = 64, and text stands in double quotes, as feed = "wait"'


def tell_graph_text(call):
    """Says where a TOML reader stops."""
    name = call["GRAPH"]
    with open(name, "rb") as file:
        data = file.read()
    try:
        text = data.decode("utf-8-sig")
        tomllib.loads(text)
    except UnicodeDecodeError as error:
        if data[:3] == b"CDF" or data[:4] == b"\x89HDF":
            return say(f"{name} is a netCDF file, and {call.order()}")
        return say(f"{name} isn't text in UTF-8: byte {error.start}, in line {data[:error.start].count(10) + 1}")
    except tomllib.TOMLDecodeError as error:
        return say(f"{name} isn't TOML: {error}; {TOML_FORMS}")
    graph = Graph(name)
    keys = [(number, *it) for number, table in enumerate([graph.run, *graph.nodes]) for it in table.items()]
    for number, key, value in keys:
        for it in value if isinstance(value, list) else [value]:
            if isinstance(it, int) and not -(2**63) <= it < 2**63:
                return say(f"{graph.place(number, key)}: {key} = {it} has more than 64 bits, which no whole number of a graph has")
    return say(f"{name}: see docs/graph.md; Python's TOML reader finds no fault in it")


# --- stacks


class Stack:
    """The header of a netCDF classic file, as far as it can be read: dimensions, global attributes, and variables."""

    def __init__(self, name):
        with open(name, "rb") as file:
            self.data, self.at = file.read(1 << 24), 4
        self.is_wide = self.data[3] == 2
        self.records = self.word()
        self.dims = self.listed(10, lambda: (self.text(), self.word()))
        self.attrs = dict(self.listed(12, self.attr))
        self.vars = self.listed(11, self.var)

    def word(self):
        self.at += 4
        return struct.unpack_from(">I", self.data, self.at - 4)[0]

    def text(self):
        length = self.word()
        self.at += length + -length % 4
        return self.data[self.at - length - -length % 4 :][:length].decode()

    def listed(self, tag, element):
        found, count = self.word(), self.word()
        if found not in (0, tag):
            raise ValueError
        return [element() for _ in range(count)]

    def attr(self):
        name, kind, count = self.text(), self.word(), self.word()
        length = count * WIDTHS[kind]
        values = self.data[self.at : self.at + length]
        self.at += length + -length % 4
        return name, (kind, values)

    def var(self):
        name = self.text()
        dims = [self.word() for _ in range(self.word())]
        self.listed(12, self.attr)
        kind = self.word()
        self.at += 8 + 4 * self.is_wide
        return name, dims, kind

    def frames(self):
        """Returns the variable of the frames, or none."""
        return next((it for it in self.vars if it[0] == "array_data"), None)

    def lengths(self):
        """Returns the number of frames, and the sizes of one, the slowest dimension first."""
        _, dims, _ = self.frames()
        return [self.dims[it][1] or self.records for it in dims]

    def samples(self):
        """Returns the number of samples of all frames."""
        return math.prod(self.lengths())


def header_of(name):
    try:
        return Stack(name)
    except (OSError, ValueError, KeyError, IndexError, struct.error):
        return None


CONVERT_FLOATS = (
    "ncap2 -s 'array_data=int(array_data)' {0} NEW.nc rounds them to whole numbers, and so does, where there is xarray, "
    "python3 -c 'import sys, xarray as x; d = x.open_dataset(sys.argv[1]); d[\"array_data\"] = d.array_data.round().astype(\"i4\"); "
    "d.attrs.pop(\"dataType\", 0); d.to_netcdf(\"NEW.nc\", format=\"NETCDF3_64BIT\")' {0}; scale or replace first what is small, NaN or doesn't fit 32 bits"
)
HEADERS = {
    "Short": "the file ends within its header: it was cut off; copy it anew",
    "Tag": "its header isn't that of a netCDF classic file behind the first bytes: write it anew by a tool of the netCDF library",
    "Negative": "its header has a number that is too large: it is damaged; write it anew by a tool of the netCDF library",
    "NameLength": "its header has a name of no bytes, or of more than 1,024: write the file anew with names between",
    "NameText": "its header has a name that isn't UTF-8: write the file anew with other names",
    "DimNumber": "its header names a dimension that isn't there: it is damaged; write it anew by a tool of the netCDF library",
    "TwoRecordDims": "it has two dimensions without a fixed length, and the classic format at most one: write it anew by a tool of the netCDF library",
    "ValueType": "it has a value type that the classic format hasn't: write it anew by a tool of the netCDF library",
}
COPY_CLASSIC = "in the classic form (for unsigned and 64-bit samples see docs/formats.md)"
FIRST_BYTES = (
    (
        b"\x89HDF",
        "it is a netCDF-4 or HDF5 file: 'nccopy -k classic {0} NEW.nc' writes netCDF-4 in the classic form; HDF5 with groups, as of NeXus, is read "
        "in Python, and unsigned and 64-bit samples are changed first (docs/formats.md)",
    ),
    (b"CDF\x05", f"it is a CDF-5 file: 'nccopy -k classic {{0}} NEW.nc' writes it {COPY_CLASSIC}"),
    (b"\x1f\x8b", "it is compressed: 'gunzip < {0} > NEW.nc' unpacks it"),
    (b"II*\0", "it is a TIFF file: write its frames as the variable array_data of a netCDF file, as docs/formats.md shows"),
    (b"MM\0*", "it is a TIFF file: write its frames as the variable array_data of a netCDF file, as docs/formats.md shows"),
)


def quoted_name(name):
    """Returns a file's name as a word of the shell that no tool takes for an option."""
    return shlex.quote(f"./{name}" if name.startswith("-") else name)


def tell_other_form(name):
    """Says how a file of another form is converted. Returns the first bytes of a file of none of these forms."""
    with open(name, "rb") as file:
        data = file.read(4096)
    for start, words in FIRST_BYTES:
        if data.startswith(start):
            say(f"{name}: {words.format(quoted_name(name))}")
            return None
    return data


def tell_magic(call):
    name = call["STACK"]
    data = tell_other_form(name)
    if data is None:
        return None
    if b"[[node]]" in data:
        return say(f"{name} is a graph, and {call.order()}")
    if re.match(rb"(load|loadrefused|close|settle) [0-9]", data):
        return say(f"{name} is a log, and {call.order()}")
    return say(f"{name} isn't a netCDF file: it begins with neither CDF and a byte 1 or 2, nor as another form does")


def tell_sample_type(name, number, header):
    kind = TYPES.get(header.frames()[2], "another") if header else "another"
    quoted = quoted_name(name)
    if number in (-5, -6) or kind in ("float", "double"):
        drop = f"; 'ncatted -a dataType,global,d,, NEW.nc' drops dataType there, which doesn't fit then" if number > 0 else ""
        what = "its samples are floating-point numbers, and only whole numbers of 8, 16 or 32 bits are read"
        return say(f"{name}: {what}: {CONVERT_FLOATS.format(quoted)}{drop}")
    if number == -2:
        return say(f"{name}: array_data is of type char: store its bytes as byte, and for UInt8 the global int attribute dataType = 1")
    named = f" ({TYPES_OF_DETECTORS[number]})" if number in TYPES_OF_DETECTORS else ""
    fits = "0 and 1 go with byte, 2 and 3 with short, 4 and 5 with int"
    return say(f"{name}: dataType is {number}{named}, and array_data is of type {kind}: {fits} ('ncatted -a dataType,global,m,i,N {quoted} NEW.nc' sets it to N)")


def first_dimension(header):
    """Returns the name of the dimension that counts the frames, or a word that stands for it."""
    frames = header.frames() if header else None
    return header.dims[frames[1][0]][0] if frames and frames[1] and frames[1][0] < len(header.dims) else "FRAMES"


def tell_rank(number, quoted):
    """Returns what can be done about an array_data of so many dimensions."""
    told = f"array_data has {number} dimension{'s' if number != 1 else ''}; the first counts the frames, and 1 to 10 follow"
    return f"{told}: 'ncecat -O {quoted} NEW.nc' puts one in front of a single image" if number < 2 else told


COUNTED = ("uniqueId", "timeStamp", "epicsTSSec", "epicsTSNsec")


def tell_misplaced(name, header, number):
    """Says how the dimension that counts a variable's values becomes the first one of array_data, where it is another of these. Fails where it isn't, and where
    the first one counts other values."""
    var, dims, _ = header.vars[number]
    frames = header.frames()[1]
    if not dims or dims[0] not in frames[1:] or dims[0] == frames[0]:
        return False
    others = [it for it in header.vars if it[0] in COUNTED or it[0].startswith("Attr_")]
    if any(it[1] and it[1][0] == frames[0] for it in others):
        return False
    named = [header.dims[it][0] for it in [dims[0], *(it for it in frames if it != dims[0])]]
    turned = f"'ncpdq -a {','.join(named)} {quoted_name(name)} NEW.nc' puts it first"
    say(f"{name}: {var} counts by {named[0]}, and the first dimension of array_data is {first_dimension(header)}: {turned}")
    return True


def tell_stack(call, words):
    name = call["STACK"]
    fault, *rest = words if words[0] != "Cdf" else words[1:]
    header, number = header_of(name), int(rest[0]) if rest else None
    var = header.vars[number][0] if header and rest and 0 <= number < len(header.vars) else f"number {number}"
    quoted, cut = quoted_name(name), first_dimension(header)
    kind = "double" if var == "timeStamp" else "int"
    without = "the ids count from 1" if var == "uniqueId" else "these times are 0"
    if not os.path.getsize(name):
        return say(f"{name} is empty")
    if fault == "Magic":
        return tell_magic(call)
    if fault in HEADERS:
        return say(f"{name}: {HEADERS[fault].format(quoted)}")
    if fault == "SampleType":
        return tell_sample_type(name, number, header)
    if fault in ("FrameCount", "AttrShape") and header and tell_misplaced(name, header, number):
        return None
    if fault == "NoArrayData":
        there = [it[0] for it in header.vars] if header else []
        renames = ""
        if there:
            most = max(header.vars, key=lambda it: len(it[1]))[0]
            renames = f": 'ncrename -v {most},array_data {quoted} NEW.nc' renames one"
        return say(f"{name}: the frames have to be the variable array_data; it has {', '.join(there) or 'no variable'}{renames}")
    return say(f"{name}: " + {
        "RecordDimNotFirst": f"the variable {var} has the dimension without a fixed length in another place than the first, which the classic format "
        "doesn't allow: write it anew by a tool of the netCDF library",
        "Overflow": f"the variable {var} would have more than 4 GiB by its header, and the file hasn't: it was cut off or is damaged; copy it anew",
        "DataShort": f"values of the variable {var} are missing at its end: it was cut off, or is still being written; copy it anew",
        "Rank": tell_rank(number, quoted) if rest else "",
        "TooManyFrames": f"it has {number:,} frames, and a stack at most 65,536: 'ncks -d {cut},0,65535 {quoted} NEW.nc' writes the first part, and the next begins at 65536"
        if rest
        else "",
        "TooManySamples": f"a frame has {number:,} samples, and at most 67,108,864 are read: cut the frames by 'ncks -d'" if rest else "",
        "FrameCount": f"the variable {var} hasn't one value of type {kind} for each frame: 'ncap2 -s \"{var}={kind}({var})\" {quoted} NEW.nc' makes {kind} of it, where it has one; "
        f"'ncks -x -v {var} {quoted} NEW.nc' leaves it out, and {without} then",
        "AttrShape": f"the attribute {var} hasn't one value, or one text, for each frame: 'ncks -x -v {var} {quoted} NEW.nc' leaves it out, and no trigger can ask for it then",
    }.get(fault, "see docs/formats.md"))


def cutting(name, parts=2):
    """Returns a command that cuts the first of so many parts from a stack, along its first dimension."""
    header = header_of(name)
    frames = header.lengths()[0] // parts if header and header.frames() else 1_000
    return f"'ncks -d {first_dimension(header)},0,{max(0, frames - 1)} {quoted_name(name)} NEW.nc'"


def tell_limit(call, words):
    fault, *rest = words
    number, stack = int(rest[-1]), call["STACK"]
    if fault == "GraphBytes":
        return say(f"{call['GRAPH']} has {number:,} bytes, and a graph at most {LONGEST_GRAPH:,}; {call.order()}")
    if fault == "LogFile":
        return say(f"{call['LOG']} has {number:,} bytes, and a log at most {LONGEST_LOG:,}; {call.order()}")
    if fault == "StackFile":
        if call["DARK"] and os.path.getsize(call["DARK"]) == number:
            stack = call["DARK"]
        # a tenth less for what a part has beside its frames
        parts = number // (LONGEST_STACK * 9 // 10) + 1
        what = f"{stack} has {number:,} bytes, and a stack at most {LONGEST_STACK:,}"
        if tell_other_form(stack) is None:
            return say(f"{what}: convert it in {parts} parts or more")
        return say(f"{what}: cut it along its first dimension into {parts} or more, as with {cutting(stack, parts)}")
    if fault == "GenBytes":
        frame = int(call["W"]) * int(call["H"]) * WIDTHS_OF_SAMPLES[call["KIND"]]
        fits = f"up to {MOST_GENERATED // frame:,} frames of these sizes, or smaller ones"
        return say(f"the samples would have {number:,} bytes, and at most {MOST_GENERATED:,} are made: {fits}")
    if call["NAME"]:
        what = f"{call['NAME']} would have {number:,} bytes, and a file has at most {LONGEST_FILES[1]:,}"
        return say(f"{what}: cut the stack along its first dimension, as with {cutting(stack)}")
    nodes = Graph(call["GRAPH"]).nodes if call["GRAPH"] else []
    if fault == "Load":
        fits = f"with {len(nodes)} nodes a stack of up to {MOST_ARRIVALS // max(len(nodes), 1):,} frames"
        return say(f"frames times nodes is {number:,}, and at most {MOST_ARRIVALS:,} are allowed: {fits}, or fewer nodes")
    if fault == "Kept":
        what = f"the statistics would keep {number:,} bins and profile sums over all frames, and at most {MOST_KEPT:,} are allowed"
        fits = MOST_KEPT * sizes_in(stack)[0] // number
        return say(f"{what}: fewer bins (hist_size), no profiles, or a stack of up to {fits:,} frames")
    node = nodes[int(rest[0]) - 1] if nodes else {}
    form = node.get("cdf", 1) if node else 1
    what = f"node {node['name']}" if node else "copy"
    helps = ['cdf = 2, for up to 8,589,934,592 bytes'] if form == 1 and node and number <= LONGEST_FILES[2] else []
    arrays = min(node.get("count", 1), sizes_in(stack)[0]) * LONGEST_FILES[form] // number
    if arrays > 0 and node.get("count", 1) > 1:
        helps.append(f"a smaller count, as {max(1, arrays * 9 // 10):,}")
    if not node:
        helps.append("a graph with one file node in place of copy, with count or cdf = 2")
    return say(f"{what} would write a file of {number:,} bytes, and its form has at most {LONGEST_FILES[form]:,}: {', or '.join(helps) or 'smaller frames'}")


def tell_memory(call):
    """Says which stack takes more memory for what its frames have beside their samples than a command gives to that."""
    for name in filter(None, (call["DARK"], call["STACK"])):
        header = header_of(name)
        frames = header.lengths()[0]
        attributes = [it for it in header.vars if it[0].startswith(ATTR) and it[0] != ATTR]
        texts = sum(header.dims[dims[1]][1] for _, dims, kind in attributes if TYPES.get(kind) == "char")
        if frames * (BYTES_OF_FRAME + BYTES_OF_ATTRIBUTE * len(attributes) + texts) > MOST_HEADS:
            leave = f"leave attributes out, as with 'ncks -x -v {attributes[0][0]} {quoted_name(name)} NEW.nc', or cut the stack, as with {cutting(name)}"
            return say(f"{name} has {frames:,} frames with {len(attributes):,} attributes each, which are too many: {leave} (docs/formats.md)")
    return None


def sizes_in(name):
    """Returns the number of a stack's frames, and words for the sizes of one, dimension 0 first."""
    frames, *sizes = header_of(name).lengths()
    return frames, " x ".join(f"{it:,}" for it in reversed(sizes))


def tell_sizes(call):
    _, sizes = sizes_in(call["STACK"])
    if call.command == "orient":
        return say(f"the frames of {call['STACK']} have one dimension, of {sizes} samples, and a mode turns dimensions 0 and 1")
    frames, dark_sizes = sizes_in(call["DARK"])
    if frames == 0 or dark_sizes == sizes:
        return say(f"{call['DARK']} has no frame, and its first one is the dark one")
    return say(f"the frames of {call['DARK']} have {dark_sizes} samples, and those of {call['STACK']} {sizes}: the dark frame has to have the same sizes")


LONGEST_LINE_SHOWN = 80


def shown(line):
    """Returns a line in quotes, cut where it is long, with each control character as its number."""
    text = line.rstrip("\n")
    cut = text[:LONGEST_LINE_SHOWN] + (" .." if len(text) > LONGEST_LINE_SHOWN else "")
    return shlex.quote(printable(cut))


def lines_of(log):
    """Gives the lines of a log, each as it stands, and of one that is too long for an entry its front alone."""
    with open(log, encoding="utf-8", errors="replace", newline="\n") as file:
        while line := file.readline(1000):
            whole = line.endswith("\n")
            while not whole and (rest := file.readline(1_000_000)):
                whole = rest.endswith("\n")
            yield line


def tell_log_line(call, number, what):
    """Says what stands at a line of a log, and what of that."""
    line = next((it for count, it in enumerate(lines_of(call["LOG"]), 1) if count == number), "")
    return say(f"line {number} of {call['LOG']} is {shown(line)}: {what(line)} (docs/log.md)")


def why_no_entry(line):
    if not line.endswith("\n") and len(line) < 1000:
        return "it has no newline behind it, as where a log was cut off or is still being written"
    return "it isn't spelled as an entry"


def why_not_there(_):
    return "no run of this graph over this stack goes on so after the lines before it"


def tell_log(call, words):
    if words[0] == "Unfinished":
        return say(f"no line of {call['LOG']} is wrong, and the run isn't at its end: lines are missing behind the last one (docs/log.md)")
    return tell_log_line(call, int(words[1]), why_not_there)


def tell_difference(call, words):
    node = Graph(call["GRAPH"]).nodes[int(words[0]) - 1]
    end = ".txt" if node["kind"] == "stats" else f"_{int(words[1]):03}.nc"
    return say(f"{call['PREFIX']}{node['name']}{end} isn't the file that this run wrote: its size or its bytes differ (docs/log.md)")


def tell_refusal(line, call):
    words = line.partition("status ")[2].split()
    if words[0] == "1":
        tell_words(call)
    elif words[0] == "2":
        tell_graph_text(call)
    elif words[0] == "3":
        tell_graph_rule(Graph(call["GRAPH"]), words[2:])
    elif words[0] == "4":
        tell_stack(call, words[2:])
    elif words[0] == "5":
        tell_limit(call, words[2:])
    elif words[0] == "9":
        tell_memory(call)
    elif words[0] == "10":
        tell_sizes(call)
    elif words[0] == "11":
        tell_log_line(call, int(words[3]), why_no_entry)
    elif words[0] == "12":
        tell_log(call, words[2:])
    elif words[0] == "13":
        tell_difference(call, words[2:])


# --- losses

CAUSES = ("refused", "full", "pool", "sort")
PLAIN_OR_CUT = "plain or a stack that is cut"


def whole_attributes(stack):
    """Returns the names of the stack's attributes that have a whole number for each frame."""
    header = header_of(stack)
    frames = header.frames()[1][:1]
    return [name[len(ATTR) :] for name, dims, kind in header.vars if name.startswith(ATTR) and dims == frames and kind in WHOLE_TYPES]


def why_never(node, call):
    """Returns which attribute of a trigger the stack hasn't, where that can be told."""
    try:
        there = whole_attributes(call["STACK"])
    except (OSError, ValueError, LookupError, TypeError, struct.error):
        return ""
    for key in ("a", "b"):
        if not node.get(key) and key.upper() in str(node.get("trigger")):
            return f": it has {key.upper()}, and {key} isn't given"
        if node.get(key) and node[key] not in there and key.upper() in str(node.get("trigger")):
            has = f"; it has {', '.join(there)}" if there else ""
            return f". {key} = {spelled(node[key])} is no attribute of the stack with whole values{has}"
    return ""


def rows_of(report):
    """Returns the number of frames of a report, and the numbers of the driver and of each node by their names."""
    with open(report, encoding="utf-8") as file:
        first, *rows = [line.split() for line in file if not line.startswith("seen ")]
    named = [words[1:] if words[0] == "node" else words for words in rows if len(words) > 4]
    return int(first[1]), {name: {key: int(number) for key, number in zip(pairs[::2], pairs[1::2])} for name, *pairs in named}


def way_to(name, nodes):
    """Returns a node and those before it, up to the driver."""
    way = [name]
    while name in nodes and len(way) <= len(nodes):
        name = nodes[name].get("input", "driver")
        way.append(name)
    return way


def what_keeps(name, frames, nodes, run):
    """Returns what keeps the arrays that a full queue drops at a node."""
    queue = f"queue = {frames} at {name}" if frames <= LONGEST_QUEUE else PLAIN_OR_CUT
    node = nodes.get(name, {})
    if node.get("input", "driver") == "driver" and run.get("feed") != "wait":
        return f'feed = "wait" under [run], or {queue}, keeps them'
    return f"{queue} keeps them{'' if node.get('kind') in KINDS_OF_ONE_THREAD else ', and more threads there take them faster'}"


def what_sorts(name, frames, nodes):
    """Returns what keeps the results that a full sort list drops at a node."""
    scatter = next((it for it in way_to(name, nodes)[1:] if nodes.get(it, {}).get("kind") == "scatter"), None)
    if scatter:
        return f"It waits for ids that went to another child of {scatter}: sort above a scatter node and not below it"
    return f"{f'sort = {frames} at {name}' if frames <= LONGEST_QUEUE else PLAIN_OR_CUT} keeps them"


def tell_losses(report, call):
    frames, rows = rows_of(report)
    try:
        graph = Graph(call["GRAPH"])
        run, nodes = graph.run, {it.get("name"): it for it in graph.nodes}
    except (OSError, ValueError):
        run, nodes = {}, {}
    pool = f"pool = 0 under [run], which is no limit, keeps them; one above {run.get('pool', 0)} may, which has room for several arrays"
    for name, numbers in rows.items():
        count = lambda it: numbers.get(it, 0)
        if count("refused"):
            say(f"{count('refused')} of {count('offered')} frames were refused at the driver: the pool was full. {pool} (docs/report.md)")
        if count("full"):
            keeps = what_keeps(name, frames, nodes, run)
            say(f"{count('full')} of {count('offered')} arrays were dropped at {name}: its queue was full. {keeps} (docs/report.md)")
        if count("pool"):
            say(f"{count('pool')} of {count('offered')} arrays were dropped at {name}: the pool was full. {pool} (docs/report.md)")
        if count("sort"):
            sorts = what_sorts(name, frames, nodes)
            say(f"{count('sort')} of {count('offered')} results were dropped at {name}: its sort list was full. {sorts} (docs/report.md)")
        if nodes.get(name, {}).get("kind") == "circular" and count("accepted") and not count("out"):
            is_lossy = any(rows[it].get(cause) for it in way_to(name, nodes) if it in rows for cause in CAUSES)
            lost = " (and some were lost at it or before it)" if is_lossy else ""
            say(f"nothing went out of {name}: its trigger fired at none of the {count('accepted')} arrays that came{lost}{why_never(nodes[name], call)} (docs/report.md)")


# --- threads

THREADS_OF_DEMO = 9


def roles_that_left(log):
    """Returns how many threads left a run before its end, by its log."""
    with open(log, encoding="utf-8") as file:
        return sum(line.startswith("leave ") for line in file)


def tell_threads(room, call):
    workers = THREADS_OF_DEMO if call.command == "demo" else sum(it.get("threads", 1) for it in Graph(call["GRAPH"]).nodes)
    asked = workers + (2 if call.command == "watch" else 1)
    then = "all files stand. Take fewer threads, or raise the limit ('ulimit -u', or pids.max of the control group)"
    if call.command == "run-log":
        left = roles_that_left(f"{call['PREFIX']}log.txt")
        if left:
            say(f"{left} of the run's {asked} threads left it, as the system made no thread for them or had no memory: so the first thread did the work alone, and {then}")
    elif room and int(room) < asked:
        say(f"the run asks for {asked} threads beside the first one, and {max(0, int(room))} could be started: so the first thread may have done the work alone; {then}")


# --- the files of a run

ENDS_OF_FIRST_FILES = {"file": "_000.nc", "stats": ".txt"}


def files_of_log(prefix, call):
    """Returns the names of the files that a run of this log wrote, but for one under the log's own name."""
    nodes = Graph(call["GRAPH"]).nodes
    names = {f"{prefix}{it['name']}.txt" for it in nodes if it["kind"] == "stats" and it["name"] != "log"}
    for words in map(str.split, lines_of(call["LOG"])):
        if words[:1] == ["save"]:
            names.add(f"{prefix}{nodes[int(words[2]) - 1]['name']}_{int(words[6]):03}.nc")
    return names


def tell_files(prefix, call):
    if not may_be_graph(call["GRAPH"]):
        return
    names = files_of_log(prefix, call) if call.command == "check" else {f"{prefix}{it['name']}{ENDS_OF_FIRST_FILES[it['kind']]}" for it in Graph(call["GRAPH"]).nodes if it["kind"] in ENDS_OF_FIRST_FILES}
    if call.command == "run-log":
        names.add(f"{prefix}log.txt")
    print("".join(f"{it}\0" for it in sorted(names)), end="")


def tell_replaced(prefix, call):
    """Says whose rows the log of a run takes the place of."""
    if may_be_graph(call["GRAPH"]) and any(it.get("name") == "log" and it.get("kind") == "stats" for it in Graph(call["GRAPH"]).nodes):
        say(f"the log takes the place of the rows of the statistics node log in {prefix}log.txt: another name of the node keeps them (docs/outputs.md)")


# --- the trial build


def nodes_that_compute(graph):
    """Returns how many nodes of a graph go over the samples of each array: those of regions and statistics, or 1 where it can't be told."""
    try:
        nodes = Graph(graph).nodes if may_be_graph(graph) else []
        return max(1, sum(it.get("kind") in ("roi", "stats") for it in nodes))
    except (OSError, ValueError):
        return 1


def tell_time(called, call):
    stack = call["STACK"]
    if os.path.getsize(stack) > LONGEST_STACK:
        return
    header = header_of(stack)
    try:
        samples, width = header.samples(), WIDTHS[header.frames()[2]]
    except (AttributeError, TypeError, LookupError):
        samples, width = os.path.getsize(stack), 1
    seconds = samples * width * (SECONDS_OF_BYTE.get(call.command) or SECONDS_OF_BYTE_AT_NODE * nodes_that_compute(call["GRAPH"]))
    if seconds < LEAST_TIME:
        return
    long = f"{seconds:.0f} seconds" if seconds < 120 else f"{seconds / 60:.0f} minutes" if seconds < 7200 else f"{seconds / 3600:.0f} hours"
    build = f"'{called.removesuffix(' --unproved')} --build' builds the proved program, which is many times as fast"
    say(f"the trial build is for small data: these {samples:,} samples take it up to some {long}. {build}")


if __name__ == "__main__":
    what, of, *words = sys.argv[1:]
    try:
        {"refusal": tell_refusal, "losses": tell_losses, "threads": tell_threads, "time": tell_time, "files": tell_files, "replaced": tell_replaced}[what](of, Call(*words))
    except (OSError, ValueError, LookupError, TypeError, AttributeError):
        # What can't be told isn't told: the program's own line stands.
        said.clear()
    sys.exit(0 if said or what == "time" else 1)
