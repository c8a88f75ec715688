#!/usr/bin/env bash
# The built program on sources near the greatest size: each kind of long list is read, printed as its canonical text, and judged;
# and on a long trace, which takes no more memory than a short one.
set -u
. "$(dirname "${BASH_SOURCE[0]}")/common/program.bash"

# prints NAME: the program prints NAME.pc, which is of a size near the greatest, as the file `wanted`
prints() {
  size="$(wc -c <"$1.pc")"
  [ "$size" -ge 1000000 ] && [ "$size" -le 1048576 ] || wrong "$1: the source has $size bytes"
  "$program" print "$1.pc" </dev/null >out; status=$?
  expect 0 wanted "$1"
}

# a `main` of 1,048,562 empty statements, which has the greatest size
awk 'BEGIN { printf "void main() {"; for (i = 0; i < 1048562; i++) printf ";"; printf "}" }' >statements.pc
awk 'BEGIN { print "void main() {"; for (i = 0; i < 1048562; i++) print "  ;"; print "}" }' >wanted
prints statements

# 80,000 variables
awk 'BEGIN { for (i = 1; i <= 80000; i++) printf "int a%06d;\n", i }' >items.pc
awk 'BEGIN { for (i = 1; i <= 80000; i++) printf "int a%06d = 0;\n", i }' >wanted
prints items

# a call with 500,000 arguments
awk 'BEGIN { printf "void main(){f(0"; for (i = 1; i < 500000; i++) printf ",%d", i % 10; printf ");}" }' >arguments.pc
awk 'BEGIN { printf "void main() {\n  f(0"; for (i = 1; i < 500000; i++) printf ", %d", i % 10; printf ");\n}\n" }' >wanted
prints arguments

# a function with 85,000 parameters
awk 'BEGIN { printf "void f(int a000001"; for (i = 2; i <= 85000; i++) printf ",int a%06d", i; printf "){}" }' >parameters.pc
awk 'BEGIN { printf "void f(int a000001"; for (i = 2; i <= 85000; i++) printf ", int a%06d", i; printf ") {\n}\n" }' >wanted
prints parameters

# one byte more than the greatest size
{ cat statements.pc; printf ' '; } >long.pc
[ "$(wc -c <long.pc)" = 1048577 ] || wrong "one byte more: the source hasn't 1,048,577 bytes"
printf 'refused Z1 1048576 1048576\n' >wanted
"$program" print long.pc </dev/null >out; status=$?
expect 1 wanted "one byte more"
# the rules on large sources: the empty statements weigh nothing; no `main` among the variables; 30,000 threads that start
# one another in a chain; 30,000 functions that call one another in a chain, of which the 17th is too high
rules() {
  printf '%s\n' "$3" >wanted
  "$program" rules "$1.pc" </dev/null >out; status=$?
  expect "$2" wanted "the rules on $1"
}
rules statements 0 "accepted threads 1 words 0 weight 8 single 8"
rules items 1 "refused N6 1040000 1040000"
awk 'BEGIN { printf "void f00000() { EOT; }"; for (i = 1; i < 30000; i++) printf "void f%05d() { PAR(f%05d); }", i, i - 1; printf "void main() { PAR(f29999); }" }' >threads.pc
size="$(wc -c <threads.pc)"
rules threads 1 "refused Z2 $size $size"
awk 'BEGIN { printf "void f00000() { }"; for (i = 1; i < 30000; i++) printf "void f%05d() { f%05d(); }", i, i - 1; printf "void main() { f29999(); }" }' >calls.pc
rules calls 1 "refused Z6 427 433"
# a trace of 100,000 lines, and the greatest memory that the run of each trace takes, in KiB
memory() {
  yes 4 | head -"$1" >trace
  seq 0 $(($1 - 1)) | awk '{ print "tick " $1 ": 5 cycles " ($1 == 0 ? 8 : $1 == 1 ? 4 : 3) } END { print "ticks " NR " worst 8" }' >wanted
  python3 - "$program" go "$top/examples/p1.pc" p1.im >peak <<'PYTHON'
import resource, subprocess, sys
with open("trace", "rb") as trace, open("out", "wb") as out:
    status = subprocess.run(sys.argv[1:], stdin=trace, stdout=out).returncode
print(status, resource.getrusage(resource.RUSAGE_CHILDREN).ru_maxrss)
PYTHON
  read -r status peak <peak
  expect 0 wanted "a trace of $1 lines"
}
memory 10
short="$peak"
memory 100000
[ "$peak" -le $((short + 1024)) ] || wrong "a trace of 100000 lines: $peak KiB of memory, and $short KiB for ten lines"
echo "large: $peak KiB of memory for a trace of 100000 lines, $short KiB for ten"
[ "$failed" = 0 ] && echo "large: all as they must be"
exit "$failed"
