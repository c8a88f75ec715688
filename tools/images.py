"""What the tools read of the machine: images, certificates, tables of costs, and the words of a code."""
import re

from reports import Bad, lines_of

# the classes of words in the order of docs/machine.md, "Cost classes"
CLASSES = "alu shift mul div imm load store jump taken untaken fork eot end abrt leave call ret loop next drop cend tick".split()

# the words of docs/machine.md by their opcodes; of type A by their low parts, and conditional branches by their numbers
TYPE_A = {(4, 0): "addk", (5, 0): "rsubk", (5, 1): "cmp", (16, 0): "mul", (17, 0): "bsrl", (17, 512): "bsra", (17, 1024): "bsll"}
TYPE_A.update({(18, 0): "idiv", (32, 0): "or", (33, 0): "and", (34, 0): "xor", (50, 0): "lw", (54, 0): "sw"})
TYPE_B = {12: "addik", 40: "ori", 41: "andi", 42: "xori", 58: "lwi", 62: "swi"}
BRANCHES = ["beqi", "bnei", "blti", "blei", "bgti", "bgei"]
UNIT = ["fork", "eot", "end", "abrt", "leave", "call", "ret", "loop", "next", "drop", "cend"]
CLASS_OF = {"mul": "mul", "idiv": "div", "bsrl": "shift", "bsra": "shift", "bsll": "shift", "imm": "imm", "lw": "load", "lwi": "load"}
CLASS_OF.update({"sw": "store", "swi": "store", "bri": "jump"})
CLASS_OF.update({name: name for name in UNIT})
AFTER_IMM = {"addik", "ori", "andi", "xori", "bri", "lwi", "swi", "loop", *BRANCHES}


class Word:
    """A code word: its name, its text with its fields, and its number."""

    def __init__(self, name, text, number=0):
        self.name, self.text, self.number = name, text, number

    def takes_choice(self):
        return self.name in BRANCHES

    def is_branch(self):
        return self.name in BRANCHES or self.name == "bri"

    def class_of(self):
        """Its class of costs; of a conditional branch none, since it has two."""
        return None if self.takes_choice() else CLASS_OF.get(self.name, "alu")


def decoded(code):
    """The word of a code, or None where there is no such word."""
    opcode, rd, ra, low = code >> 26, code >> 21 & 31, code >> 16 & 31, code & 65535
    signed = low - 65536 if low > 32767 else low
    rb, rest = low >> 11, low & 2047
    if (opcode, rest) in TYPE_A:
        name = TYPE_A[opcode, rest]
        return Word(name, f"{name} r{rd} r{ra} r{rb}")
    if opcode in TYPE_B:
        return Word(TYPE_B[opcode], f"{TYPE_B[opcode]} r{rd} r{ra} {signed}", signed)
    if opcode == 44 and rd == ra == 0:
        return Word("imm", f"imm {signed}", signed)
    if opcode == 46 and rd == ra == 0:
        return Word("bri", f"bri {signed}", signed)
    if opcode == 47 and rd < len(BRANCHES):
        return Word(BRANCHES[rd], f"{BRANCHES[rd]} r{ra} {signed}", signed)
    if opcode != 63 or rd >= len(UNIT) or (ra and UNIT[rd] != "cend"):
        return None
    name = UNIT[rd]
    if name == "fork":
        return Word(name, f"fork {low >> 8} {low & 255}", low)
    if name == "cend":
        return Word(name, f"cend r{ra}") if low == 0 else None
    if name in ("abrt", "call", "loop", "next"):
        return Word(name, f"{name} {low}", low)
    return Word(name, name) if low == 0 else None


class Lines:
    """The lines of a file, taken one after another; a line that isn't as it must be is refused by its number."""

    def __init__(self, name, first):
        self.name, self.at, self.lines = name, 0, lines_of(name)
        if self.lines.pop() != "" or self.take() != first:
            raise Bad(f"{name} doesn't begin with the line `{first}`, or its last line has no end")

    def take(self):
        self.at += 1
        return self.lines[self.at - 1] if self.at <= len(self.lines) else None

    def match(self, form, due):
        """The parts of the next line, which has this form."""
        line = self.take()
        found = None if line is None else re.fullmatch(form, line)
        if not found:
            raise Bad(f"{self.name}, line {self.at}: {due}")
        return found.groups()

    def section(self, word, form, due):
        """The parts of the lines of a section, which says how many they are."""
        (count,) = self.match(rf"{word} (0|[1-9]\d*)", f"`{word}` and a number are due")
        return [self.match(form, due) for _ in range(int(count))]

    def done(self):
        if self.at != len(self.lines):
            raise Bad(f"{self.name}, line {self.at + 1}: nothing is due here")


NUMBER = r"(0|[1-9]\d*)"
POINT = r"(\d+) (\d+) (\d+)((?: \d+)*)"


class Image:
    """An image: the lists of its file that the tools look at, by their names there."""

    def __init__(self, name):
        lines = Lines(name, "ARPRET 1")
        self.code = [decoded(int(word, 16)) for (word,) in lines.section("code", "([0-9a-f]{8})", "8 hexadecimal digits are due")]
        lines.section("memory", r"(-?\d+)", "a number is due")
        self.inputs, self.outputs, self.slots = (
            [int(number) for (number,) in lines.section(word, NUMBER, "a number is due")] for word in ("inputs", "outputs", "slots")
        )
        aborts = lines.section("aborts", rf"([sw]) {NUMBER} {NUMBER}", "`s` or `w` and two places are due")
        self.aborts = [(kind == "w", int(condition), int(handler)) for kind, condition, handler in aborts]
        self.pauses, self.forks = (self.points(lines, word) for word in ("pauses", "forks"))
        lines.done()
        places = self.slots + [place for abort in self.aborts for place in abort[1:]] + [place for place, _ in [*self.pauses, *self.forks]]
        if not self.code or not self.slots or max(places, default=0) >= len(self.code):
            raise Bad(f"{name} isn't an image: it names a place that isn't in its code, or has no code or no slot")

    @staticmethod
    def points(lines, word):
        """Pauses or forks: the aborts, from the outermost, by place and slot."""
        found, points = {}, lines.section(word, POINT, "a place, a slot and its aborts are due")
        for line, (at, slot, count, stack) in enumerate(points, lines.at - len(points) + 1):
            if int(count) != len(stack.split()):
                raise Bad(f"{lines.name}, line {line}: {count} aborts are due")
            found[int(at), int(slot)] = [int(number) for number in stack.split()]
        return found

    def upper(self, lines, place):
        """The upper half with which a place is read."""
        word = self.code[place - 1] if place else None
        return word.number if word and word.name == "imm" and lines[place - 1] else None

    def goal(self, place, upper):
        """Where a branch leads, or None."""
        imm = self.code[place].number
        if upper is not None:
            imm = (upper % 65536) * 65536 + imm % 65536
        byte = (4 * place + imm) % 2**32
        return byte // 4 if byte % 4 == 0 and byte // 4 < len(self.code) else None

    def turns(self, place, upper):
        return self.code[place].number + (0 if upper is None else (upper % 65536) * 65536)

    def children(self, place):
        number = self.code[place].number
        return range(number >> 8, (number >> 8) + (number & 255))


class Line:
    """A line of a certificate: its letter, its slot or height, its aborts and loops, and the numbers of each level."""

    def __init__(self, letter, owner, aborts, loops, levels):
        self.letter, self.owner, self.aborts, self.loops, self.levels = letter, owner, aborts, loops, levels


class Certificate:
    """A certificate: its bound, a line or None for each place, the weights of loops, the numbers of slots, and the walk."""

    def __init__(self, name):
        lines = Lines(name, "PRETCERT 1")
        self.bound = int(lines.match(f"bound {NUMBER}", "`bound` and a number are due")[0])
        places = lines.section("at", r"(-|[TRC](?: (?:\d+|-))+)", "`-`, or `T`, `R` or `C` and its numbers are due")
        first = lines.at - len(places) + 1
        self.lines = [self.line(f"{name}, line {first + i}", text) for i, (text,) in enumerate(places)]
        weights = lines.section("loops", f"{NUMBER} {NUMBER}", "a place and a weight are due")
        self.weights = {int(place): int(weight) for place, weight in weights}
        self.slots = lines.section("slots", r"(\d+|-) (\d+|-)", "two numbers or `-` are due")
        self.states = lines.section("walk", r"([fse]|[pw](?= ))(?: (\d+))?", "the state of a slot is due")
        (count,) = lines.match(f"choices {NUMBER}", "`choices` and a number are due")
        (self.choices,) = lines.match("([01]*)", "a line of choices is due")
        lines.done()
        if len(self.choices) != int(count):
            raise Bad(f"{name}, line {lines.at}: {count} choices are due")

    @staticmethod
    def line(where, text):
        """The line of a place, or None where nothing is said of it."""
        letter, *rest = text.split(" ")
        numbers = [None if number == "-" else int(number) for number in rest]

        def taken(count):
            if count is None or len(numbers) < count or None in numbers[:count]:
                raise Bad(f"{where}: there aren't as many numbers as the line says")
            front = numbers[:count]
            del numbers[:count]
            return front

        if letter == "-":
            return None
        (owner,) = taken(1) if letter in "TR" else (None,)
        aborts = taken(taken(1)[0]) if letter == "T" else []
        loops = taken(taken(1)[0]) if letter in "TR" else []
        if len(numbers) != (2 * len(aborts) + 2 if letter == "T" else 1):
            raise Bad(f"{where}: there aren't as many numbers as the line says")
        levels = list(zip(numbers[::2], numbers[1::2])) if letter == "T" else [(numbers[0],)]
        return Line(letter, owner, aborts, loops, levels)


def read_costs(name):
    """What each class costs; `-` is the table in which each costs 1."""
    if name == "-":
        return dict.fromkeys(CLASSES, 1)
    costs = {}
    for at, line in enumerate(lines_of(name), 1):
        bare = line.split("#")[0].strip()
        found = re.fullmatch(r"(\w+)\s*=\s*(\d+)", bare)
        if bare and not (found and found[1] in CLASSES and 1 <= int(found[2]) <= 255):
            raise Bad(f"{name}, line {at}: a class of words and its cycles, from 1 to 255, are due")
        if bare:
            costs[found[1]] = int(found[2])
    missing = [key for key in CLASSES if key not in costs]
    if missing:
        raise Bad(f"{name} has no cycles for {missing[0]}")
    return costs
