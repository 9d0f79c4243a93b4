"""Writes the manual page of nd_replay to standard output, from the text of `nd_replay --help`: manual.py < TEXT > docs/nd_replay.1"""

import re
import sys


def escaped(text):
    """Returns a text as a page's source has it."""
    text = text.replace("\\", "\\e").replace("-", "\\-")
    return f"\\&{text}" if text.startswith((".", "'")) else text


def blocks_of(text):
    """Yields the paragraphs of a text, each as its lines."""
    for block in text.strip("\n").split("\n\n"):
        yield block.split("\n")


def page_of(text):
    """Returns the page: what stands indented is an entry with its words, and what doesn't is a paragraph."""
    (title, *_), *rest = blocks_of(text)
    name, _, does = title.partition(": ")
    page = [f'.TH {name.upper()} 1 "" "" "Moztirde"', ".SH NAME", f"{escaped(name)} \\- {escaped(does)}", ".SH DESCRIPTION"]
    for lines in rest:
        if not lines[0].startswith("    "):
            page += [".PP", *map(escaped, lines)]
            continue
        # An entry's words begin behind two spaces or more, and its further lines are indented by more than four.
        for line in lines:
            entry = re.fullmatch(r"    (\S.*\S)  +(\S.*)", line) or re.fullmatch(r"    (\S.*)()", line)
            if entry:
                page += [".TP", f".B {escaped(re.sub(' {2,}', ' ', entry[1]))}", *([escaped(entry[2])] if entry[2] else [])]
            else:
                page.append(escaped(line.strip()))
    return "\n".join(page) + "\n"


if __name__ == "__main__":
    sys.stdout.write(page_of(sys.stdin.read()))
