#!/usr/bin/env bash
# The pictures of a run and of an image: whole outputs on the worked examples and on reports in the repository, and what bad
# input gets.
set -u
top="$(cd "$(dirname "${BASH_SOURCE[0]}")/.." && pwd)"
work="$(mktemp -d)"
trap 'rm -rf "$work"' EXIT
cd "$work" || exit 1
failed=0
wrong() { echo "FAILED: $*"; failed=1; }
example="$top/examples/pictures/counter"

"$top/tools/cycles" "$example.report" >svg 2>err; status=$?
[ "$status" = 0 ] && [ ! -s err ] && cmp -s svg "$example.svg" || wrong "cycles of the counter"
"$top/tools/waves" "$example.pc" "$example.trace" "$example.report" >vcd 2>err; status=$?
[ "$status" = 0 ] && [ ! -s err ] && cmp -s vcd "$example.vcd" || wrong "waves of the counter"
# every report and every meaning in the examples has its waves, and every report its bars
for trace in "$top"/examples/*.trace "$top"/examples/whole/*.trace; do
  name="${trace%.trace}"
  report="$name.report"
  [ -e "$report" ] && { "$top/tools/cycles" "$report" >svg || wrong "cycles of $report"; }
  [ -e "$report" ] || report="$name.meaning"
  "$top/tools/waves" "$name.pc" "$trace" "$report" >vcd || wrong "waves of $report"
  # GTKWave's converter refuses a file that isn't in form
  if command -v vcd2fst >/dev/null; then vcd2fst vcd fst >/dev/null 2>&1 || wrong "waves of $report: not in form"; fi
done
python3 -c 'import sys, xml.dom.minidom; xml.dom.minidom.parse(sys.argv[1])' "$example.svg" || wrong "cycles: no XML"

# refused SENTENCE TOOL WORD..: nothing on standard output, this sentence on standard error, status 2
refused() {
  local sentence="$1" tool="$2"
  shift 2
  "$top/tools/$tool" "$@" >out 2>err; status=$?
  [ "$status" = 2 ] && [ ! -s out ] && [ "$(cat err)" = "$sentence" ] || wrong "$tool $*: status $status, $(cat err)"
}
edit() { sed "$1" "$example.report" >bad; }
refused "usage: tools/cycles REPORT" cycles
refused "usage: tools/waves PROGRAM TRACE REPORT" waves bad
refused "cycles: missing can't be read: No such file or directory" cycles missing
: >bad; refused "cycles: bad isn't a report: its last line has no end" cycles bad
edit '1s/14/x/'; refused 'cycles: bad, line 1: `bound` and a number are due' cycles bad
edit '3d'; refused "cycles: bad, line 3: the line of tick 1 is due" cycles bad
edit '3s/0/o/'; refused "cycles: bad, line 3: the outputs are no numbers" cycles bad
edit '4s/ cycles 14//'; refused "cycles: bad, line 4: another form than that of tick 0" cycles bad
edit '$d'
refused 'cycles: bad ends with `tick 7: 1 cycles 14`, not with `ticks 7 worst 14`: the run came to no end, or lines are missing' cycles bad
edit '$s/.*/trace T1 line 9/'
refused 'cycles: bad ends with `trace T1 line 9`, not with `ticks 8 worst 14`: the run came to no end, or lines are missing' cycles bad
refused "cycles: $top/examples/whole/abro.meaning has no cycles: take the report of a run on the machine, not of \`mean\`" \
  cycles "$top/examples/whole/abro.meaning"
printf 'bound 3\nticks 0 worst 0\n' >bad; refused "cycles: bad has no ticks" cycles bad
refused "waves: $example.trace isn't a program: it has no \`void main\`" waves "$example.trace" "$example.trace" "$example.report"
refused "waves: $example.report, line 1: 1 number is due" waves "$example.pc" "$example.report" "$example.report"
head -3 "$example.trace" >short
refused "waves: short has 3 lines and $example.report has 8 ticks: they aren't of one run" waves "$example.pc" short "$example.report"
{ cat "$example.pc"; echo 'ReactiveOutput int more = 0;'; } >two.pc
refused "waves: $example.report has 1 outputs and two.pc has 2: they aren't of one program" waves two.pc "$example.trace" "$example.report"

# the listing of an image
"$top/tools/listing" "$top/examples/pictures/weak.im" >list 2>err; status=$?
[ "$status" = 0 ] && [ ! -s err ] && cmp -s list "$top/examples/pictures/weak.list" || wrong "listing of weak"
refused "usage: tools/listing IMAGE" listing
refused "listing: missing can't be read: No such file or directory" listing missing
refused "listing: $example.report doesn't begin with the line \`ARPRET 1\`, or its last line has no end" listing "$example.report"

# the graph of an image: the worked example under two tables of costs, forks, loops and calls, and a walk without a cost
weak="$top/examples/pictures/weak"
"$top/tools/graph" "$weak.im" "$weak.cert" - >dot 2>err; status=$?
[ "$status" = 0 ] && [ ! -s err ] && cmp -s dot "$weak.dot" || wrong "graph of the weak abort"
if command -v dot >/dev/null; then dot -Tsvg "$weak.dot" >/dev/null 2>&1 || wrong "graph of the weak abort: not in form"; fi
sed -E 's/= [0-9]+/= 1/; s/^eot .*/eot = 7/' "$top/examples/costs.toml" >seven.toml
# section WORD LINES: a section of a file, whose lines commas part
section() {
  local lines=()
  IFS=, read -ra lines <<<"$2"
  printf '%s %s\n' "$1" "${#lines[@]}"
  [ "${#lines[@]}" = 0 ] || printf '%s\n' "${lines[@]}"
}
# files NAME CODE SLOTS PAUSES FORKS BOUND LINES LOOPS NUMBERS STATES: an image, and its certificate with no choices
files() {
  {
    printf 'ARPRET 1\n'; section code "$2"; printf 'memory 0\ninputs 0\noutputs 0\n'
    section slots "$3"; echo "aborts 0"; section pauses "$4"; section forks "$5"
  } >"$1.im"
  {
    printf 'PRETCERT 1\nbound %s\n' "$6"; section at "$7"; section loops "$8"; section slots "$9"
    section walk "${10}"; printf 'choices 0\n\n'
  } >"$1.cert"
}
files forks fc000102,30600001,fc200000,fc400000,fc200000,fc400000,fc400000 0,4,6 "2 0 0,4 1 0" "0 0 0" 4 \
  "T 0 0 0 3 -,T 0 0 0 2 -,T 0 0 0 1 -,T 0 0 0 - 1,T 1 0 0 1 -,T 1 0 0 - 1,T 2 0 0 - 1" "" "3 1,- 1,- -" "w 0,p 4,e"
files loops fce00003,fd000004,30630001,b800fff8,fc200000,b800ffec 0 "4 0 0" "" 14 \
  "T 0 0 0 12 -,T 0 0 1 0 2 -,T 0 0 1 0 4 -,T 0 0 1 0 3 -,T 0 0 0 1 -,T 0 0 0 13 -" "0 3" "13 -" "p 4"
files calls fca00002,fc400000,fca00002,fcc00000 0 "" "" 7 "T 0 0 0 - 6,T 0 0 0 - 1,R 1 0 4,R 1 0 1" "" "- -" s
# drawn NAME IMAGE CERT COSTS: the graph is the one in checks/graphs
drawn() {
  "$top/tools/graph" "$2" "$3" "$4" >dot 2>err && [ ! -s err ] && cmp -s dot "$top/checks/graphs/$1.dot" || wrong "graph $1: $(cat err)"
}
drawn weak-of-seven "$weak.im" "$weak.cert" seven.toml
drawn forks forks.im forks.cert -
drawn loops loops.im loops.cert -
drawn calls calls.im calls.cert -
refused "usage: tools/graph IMAGE CERT COSTS" graph
refused "graph: missing can't be read: No such file or directory" graph missing "$weak.cert" -
refused "graph: $weak.cert doesn't begin with the line \`ARPRET 1\`, or its last line has no end" graph "$weak.cert" "$weak.im" -
refused "graph: $weak.cert isn't a certificate of forks.im: it has other places or slots" graph forks.im "$weak.cert" -
sed 's/^fc200000/FC200000/' "$weak.im" >bad; refused "graph: bad, line 4: 8 hexadecimal digits are due" graph bad "$weak.cert" -
sed 's/^w 4 3/w 4 9/' "$weak.im" >bad
refused "graph: bad isn't an image: it names a place that isn't in its code, or has no code or no slot" graph bad "$weak.cert" -
sed 's/^1 0 1 0/1 0 2 0/' "$weak.im" >bad; refused "graph: bad, line 19: 2 aborts are due" graph bad "$weak.cert" -
sed 's/^bound 9/bound x/' "$weak.cert" >bad; refused 'graph: bad, line 2: `bound` and a number are due' graph "$weak.im" bad -
sed 's/^T 0 1 0 0 1 - 4 -/T 0 1 0 0 1 -/' "$weak.cert" >bad
refused "graph: bad, line 5: there aren't as many numbers as the line says" graph "$weak.im" bad -
sed 's/^choices 1/choices 2/' "$weak.cert" >bad; refused "graph: bad, line 16: 2 choices are due" graph "$weak.im" bad -
echo more >>bad; refused "graph: bad, line 17: nothing is due here" graph "$weak.im" bad -
sed 's/^alu = .*/alu = 256/' "$top/examples/costs.toml" >bad
refused "graph: bad, line 3: a class of words and its cycles, from 1 to 255, are due" graph "$weak.im" "$weak.cert" bad
sed '/^alu/d' "$top/examples/costs.toml" >bad; refused "graph: bad has no cycles for alu" graph "$weak.im" "$weak.cert" bad
many() { yes "$1" | head -401 | paste -sd ,; }
files long "$(many fc400000)" 0 "" "" 1 "$(many "T 0 0 0 - 1")" "" "- -" s
refused "graph: long.cert has 401 places with lines: at most 400 are drawn" graph long.im long.cert -
[ "$failed" = 0 ] && echo "tools: all as they must be"
exit "$failed"
