"""What the tools read: reports of `pretc`, traces, and the names of a program's inputs and outputs."""
import re
import sys


class Bad(Exception):
    """A file isn't what it should be; the sentence says where and why."""


class Report:
    """A report: its bound or None, the outputs of each tick, and the cycles of each tick or None."""

    def __init__(self, bound, outputs, cycles):
        self.bound, self.outputs, self.cycles = bound, outputs, cycles


def lines_of(name):
    """The lines of a file, without their line feeds."""
    try:
        with open(name, encoding="latin-1", newline="\n") as file:
            return file.read().split("\n")
    except OSError as error:
        raise Bad(f"{name} can't be read: {error.strerror}")


def read_report(name):
    """The report in a file; its run is to have come to its end."""
    lines = lines_of(name)
    if lines.pop() != "" or not lines:
        raise Bad(f"{name} isn't a report: its last line has no end")
    number = re.compile("-?[0-9]+")
    bound, outputs, cycles, at = None, [], [], 0
    if lines[0].startswith("bound "):
        bound, at = int(lines[0][6:]) if lines[0][6:].isdigit() else -1, 1
        if bound < 0:
            raise Bad(f"{name}, line 1: `bound` and a number are due")
    for at, line in enumerate(lines[at:-1], at):
        start, cut, rest = line.partition(":")
        words = rest.split(" ")[1:]
        if not cut or start != f"tick {len(outputs)}":
            raise Bad(f"{name}, line {at + 1}: the line of tick {len(outputs)} is due")
        if len(words) >= 2 and words[-2] == "cycles" and words[-1].isdigit():
            cycles.append(int(words[-1]))
            words = words[:-2]
        if not all(number.fullmatch(word) for word in words):
            raise Bad(f"{name}, line {at + 1}: the outputs are no numbers")
        outputs.append([int(word) for word in words])
        if len(outputs[-1]) != len(outputs[0]) or len(cycles) not in (0, len(outputs)):
            raise Bad(f"{name}, line {at + 1}: another form than that of tick 0")
    if cycles or bound is not None or " worst " in lines[-1]:
        last = f"ticks {len(outputs)} worst {max(cycles, default=0)}"
    else:
        last = f"ticks {len(outputs)}"
    if lines[-1] != last:
        raise Bad(f"{name} ends with `{lines[-1]}`, not with `{last}`: the run came to no end, or lines are missing")
    return Report(bound, outputs, cycles if cycles or " worst " in last else None)


def read_trace(name, inputs):
    """The rows of a trace with so many inputs."""
    lines = lines_of(name)
    if lines[-1] == "":
        lines.pop()
    rows = []
    for line in lines:
        words = re.split("[ \t]+", line.rstrip("\r").strip(" \t"))
        words = [] if words == [""] else words
        if len(words) != inputs or not all(re.fullmatch("-?[0-9]+", word) for word in words):
            raise Bad(f"{name}, line {len(rows) + 1}: {inputs} number{'' if inputs == 1 else 's'} {'is' if inputs == 1 else 'are'} due")
        rows.append([int(word) for word in words])
    return rows


def read_names(name):
    """The names of a program's inputs and of its outputs, in the order of their declarations."""
    bare = re.sub(r"/\*.*?\*/|//[^\n]*", " ", "\n".join(lines_of(name)), flags=re.S)
    if not re.search(r"\bvoid\s+main\b", bare):
        raise Bad(f"{name} isn't a program: it has no `void main`")
    return [re.findall(rf"\b{word}\s+int\s+(\w+)", bare) for word in ("ReactiveInput", "ReactiveOutput")]


def run(tool, usage, words):
    """Prints what a tool makes of its words; a sentence and status 2 where it can't."""
    if len(words) != len(usage.split()):
        print(f"usage: {usage_line(tool, usage)}", file=sys.stderr)
        return 2
    try:
        text = tool(*words)
    except Bad as bad:
        print(f"{tool.__name__}: {bad}", file=sys.stderr)
        return 2
    sys.stdout.write(text)
    return 0


def usage_line(tool, usage):
    return f"tools/{tool.__name__} {usage}"
