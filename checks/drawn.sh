#!/usr/bin/env bash
# Drawn programs of every construct, always the same ones: `go` and `mean` of the built program tell the same outputs of each
# tick, and `run` reports as `go` does under a bound that the walk of its certificate costs; and programs near the limits of the
# language, of which that is so too.
set -u
. "$(dirname "${BASH_SOURCE[0]}")/common/program.bash"
python3 - "$program" <<'PYTHON' || failed=1
import random
import re
import subprocess
import sys

PROGRAM = sys.argv[1]
BINARY = ["+", "-", "*", "/", "%", "<<", ">>", "&", "|", "^", "<", ">", "<=", ">=", "==", "!=", "&&", "||"]
NUMBERS = ["0", "1", "2", "3", "5", "31", "32", "33", "100", "2147483647", "2147483648", "4294967295"]


class Drawn:
    """A program: its functions so far, and what each can be used for."""

    def __init__(self, seed):
        self.draw = random.Random(seed)
        self.functions, self.routines, self.threads = [], [], []

    def value(self, names, depth):
        draw = self.draw
        kind = draw.randrange(8) if depth else draw.randrange(3)
        if kind == 0:
            return draw.choice(NUMBERS)
        if kind <= 2:
            return draw.choice(names)
        if kind == 3:
            return "%s[%s]" % (draw.choice(["v", "w"]), self.value(names, depth - 1))
        if kind == 4:
            return "%s(%s)" % (draw.choice(["-", "~", "!"]), self.value(names, depth - 1))
        return "(%s %s %s)" % (self.value(names, depth - 1), draw.choice(BINARY), self.value(names, depth - 1))

    def goal(self, goals, names):
        if self.draw.randrange(4) == 0:
            return "%s[%s]" % (self.draw.choice(["v", "w"]), self.value(names, 1))
        return self.draw.choice(goals)

    def simple(self, goals, names):
        if self.routines and self.draw.randrange(3) == 0:
            name, count = self.draw.choice(self.routines)
            called = "%s(%s)" % (name, ", ".join(self.value(names, 1) for _ in range(count)))
            return "%s = %s;" % (self.goal(goals, names), called) if self.draw.randrange(4) else called + ";"
        return "%s = %s;" % (self.goal(goals, names), self.value(names, 2))

    def instant(self, goals, names, depth):
        """Statements that never pause."""
        return " ".join(self.instant_one(goals, names, depth) for _ in range(self.draw.randrange(1, 4)))

    def instant_one(self, goals, names, depth):
        draw, kind = self.draw, self.draw.randrange(6) if depth else 0
        if kind == 4:
            rest = " else { %s }" % self.instant(goals, names, depth - 1) if draw.randrange(2) else ""
            return "if (%s) { %s }%s" % (self.value(names, 1), self.instant(goals, names, depth - 1), rest)
        if kind == 5:
            test = draw.choice(["1", self.value(names, 1)])
            return "while (%s) #%d { %s }" % (test, draw.randrange(4), self.instant(goals, names, depth - 1))
        return self.simple(goals, names)

    def timed(self, goals, names, depth):
        """Statements that may pause."""
        return " ".join(self.timed_one(goals, names, depth) for _ in range(self.draw.randrange(1, 4)))

    def timed_one(self, goals, names, depth):
        draw, kind = self.draw, self.draw.randrange(10) if depth else self.draw.randrange(4)
        if kind <= 1:
            return self.instant(goals, names, 1)
        if kind <= 3:
            return "EOT;"
        if kind == 4:
            rest = " else { %s }" % self.timed(goals, names, depth - 1) if draw.randrange(2) else ""
            return "if (%s) { %s }%s" % (self.value(names, 1), self.timed(goals, names, depth - 1), rest)
        if kind == 5:
            test = draw.choice(["1", self.value(names, 1)])
            return "while (%s) { %s EOT; }" % (test, self.timed(goals, names, depth - 1))
        if kind <= 7:
            weak = draw.choice(["", "weak "])
            return "%sabort { %s } when pre (%s);" % (weak, self.timed(goals, names, depth - 1), self.value(["a", "b", "x"], 1))
        if not self.threads:
            return "EOT;"
        chosen = draw.sample(self.threads, min(len(self.threads), draw.randrange(1, 4)))
        self.threads = [name for name in self.threads if name not in chosen]
        return "PAR(%s);" % ", ".join(chosen)

    def program(self):
        draw, cells = self.draw, ["x", "y", "z", "o", "p"]
        for i in range(draw.randrange(3)):
            count = draw.randrange(3)
            names = ["q%d_%d" % (i, k) for k in range(count)] + ["l%d" % i]
            body = self.instant(cells + names, cells + ["a"] + names, 2)
            parameters = ", ".join("int " + name for name in names[:count])
            self.functions.append(
                "int f%d(%s) { int l%d = %s; %s return %s; }"
                % (i, parameters, i, self.value(cells, 1), body, self.value(cells + names, 1))
            )
            self.routines.append(("f%d" % i, count))
        for i in range(draw.randrange(6)):
            text = "void t%d() { int k%d; %s }" % (i, i, self.timed(cells + ["k%d" % i], cells + ["a", "b", "k%d" % i], 2))
            self.functions.append(text)
            self.threads.append("t%d" % i)
        main = self.timed(cells, cells + ["a", "b"], 3)
        if self.threads and draw.randrange(4):
            main += " PAR(%s);" % ", ".join(self.threads)
        else:
            for name in self.threads:
                main += " weak abort PAR(%s); when pre (b > 1);" % name
        self.threads = []
        head = "ReactiveInput int a = 0; ReactiveInput int b = 1; ReactiveOutput int o = 0; ReactiveOutput int p = 7;"
        return "%s int x = 1; int y = -2; int z; int v[3]; int w[0];\n%s\nvoid main() { while (1) { %s EOT; %s } }\n" % (
            head,
            "\n".join(self.functions),
            main,
            self.timed(cells, cells + ["a", "b"], 2),
        )


def called(words, trace):
    done = subprocess.run([PROGRAM, *words], input=trace, capture_output=True, text=True)
    return done.returncode, done.stdout


def agree(name, text, trace):
    """Whether the program is accepted, and then told alike and certified."""
    with open("drawn.pc", "w") as file:
        file.write(text)
    status, meaning = called(["mean", "drawn.pc"], trace)
    if status == 1:
        return False
    report = called(["go", "drawn.pc", "im"], trace)
    told = re.sub(r" worst \d+$", "", re.sub(r" cycles \d+$", "", report[1], flags=re.M), flags=re.M)
    if (status, report[0], told) != (0, 0, meaning):
        print("FAILED: %s: `go` with status %d and `mean` with status %d don't tell the same" % (name, report[0], status))
        print(text)
        sys.exit(1)
    ran = called(["run", "drawn.pc", "-", "im", "ce"], trace)
    bound = ran[1].split("\n", 1)[0]
    checked = called(["check", "im", "ce", "-"], "")
    again = called(["exec", "im", "ce", "-"], trace)
    if ran != (0, "%s\n%s" % (bound, report[1])) or checked != (0, "yes %s reached\n" % bound) or again != ran:
        print("FAILED: %s: `run` with status %d and %s, of which `check` says %s" % (name, ran[0], bound, checked[1].strip()))
        print(text)
        sys.exit(1)
    return True


def rows(seed, count):
    draw = random.Random(seed)
    return "".join("%d %d\n" % (draw.choice([0, 0, 1, -1, 7]), draw.choice([0, 1, 2, -2147483648])) for _ in range(count))


drawn = [Drawn(seed).program() for seed in range(400)]
accepted = sum(agree("drawn program %d" % i, text, rows(i, 16)) for i, text in enumerate(drawn))
if accepted < 380:
    sys.exit("FAILED: only %d of 400 drawn programs keep the rules" % accepted)
for word in ("PAR", "weak abort", " abort", "if (", "while (1) {", ") #", "[", "return"):
    if sum(word in text for text in drawn) < 100:
        sys.exit("FAILED: only few drawn programs have `%s`" % word)
# near the limits: the greatest weight, the greatest passage, 64 threads, eight aborts, eight loops and 16 routines in one another
io = "ReactiveInput int a = 0; ReactiveInput int b = 0; ReactiveOutput int o = 0;\n"
heavy = io + "void main() { while (1) { %s EOT; } }" % ("o = o * 3 + a;" * 1245)
long = io + "void main() { while (1) { while (1) #22500 { o = o + a * 3; o = o ^ b; } EOT; } }"
threads = io + "".join("void t%d() { while (1) { o = o * 2 + a; EOT; } }\n" % i for i in range(63))
threads += "void main() { abort PAR(%s); when pre (b); o = 1; }" % ", ".join("t%d" % i for i in range(63))
aborts = io + "void main() { %s while (1) { o = o + 1; EOT; } %s }" % (
    "".join(("weak " if i % 2 else "") + "abort { " for i in range(8)),
    "".join("o = o + %d; } when pre (a == %d);" % (10 ** i, i + 1) for i in range(8)),
)
loops = io + "void main() { while (1) { %s o = o + 1; %s EOT; } }" % ("while (1) #2 { " * 8, "} " * 8)
routines = io + "int f0(int n0) { return n0 + 1; }\n"
routines += "".join("int f%d(int n%d) { int r%d; r%d = f%d(n%d * 2); return r%d; }\n" % (i, i, i, i, i - 1, i, i) for i in range(1, 16))
routines += "void main() { while (1) { o = f15(a); EOT; } }"
for name, text in (("weight", heavy), ("passage", long), ("threads", threads), ("aborts", aborts), ("loops", loops), ("routines", routines)):
    if not agree(name, text, rows(7, 3)):
        sys.exit("FAILED: the program near the limit of %s is refused: %s" % (name, called(["rules", "drawn.pc"], "")[1]))
    print("drawn: %s: %s" % (name, called(["rules", "drawn.pc"], "")[1].strip()))
print("drawn: %d programs, all told alike" % accepted)
PYTHON
[ "$failed" = 0 ] && echo "drawn: all as they must be"
exit "$failed"
