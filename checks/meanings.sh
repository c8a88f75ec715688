#!/usr/bin/env bash
# The commands `mean` and `go` of the built program, which tell the same outputs: the examples of the whole language, programs
# with outputs worked out by hand, generated programs, and long and bad traces. Nothing is stored but the image of `go`.
set -u
. "$(dirname "${BASH_SOURCE[0]}")/common/program.bash"

# goes SOURCE TRACE REPORT NAME: the ticks of the compiled program have the outputs of this report
goes() {
  "$program" go "$1" im <"$2" >ticks; status=$?
  sed -E 's/ cycles [0-9]+$//; s/^(ticks [0-9]+) worst [0-9]+$/\1/' ticks >out
  expect 0 "$3" "go $4"
}
for source in "$top"/examples/whole/*.pc; do
  name="$(basename "$source" .pc)"
  "$program" mean "$source" <"$top/examples/whole/$name.trace" >out; status=$?
  expect 0 "$top/examples/whole/$name.meaning" "mean $name"
  goes "$source" "$top/examples/whole/$name.trace" "$top/examples/whole/$name.meaning" "$name"
done

# due OUTPUTS..: the lines of ticks with these outputs, and the last line
due() {
  local tick=0 outputs
  for outputs in "$@"; do
    echo "tick $tick: $outputs"
    tick=$((tick + 1))
  done
  echo "ticks $tick"
}
# row NAME TRACE OUTPUTS..: the program on standard input does this
row() {
  local name="$1" trace="$2"
  shift 2
  cat >row.pc
  due "$@" >wanted
  printf "$trace" >trace
  "$program" mean row.pc <trace >out; status=$?
  expect 0 wanted "$name"
  goes row.pc trace wanted "$name"
}
io='ReactiveInput int a = 0; ReactiveOutput int o = 0;'
row "threads that share a variable" '\n\n\n' '0 1' '2 1' '2 1' <<'PROGRAM'
ReactiveOutput int o = 0; ReactiveOutput int p = 0; int x = 0;
void f() { x = 1; EOT; } void g() { p = x; x = 2; EOT; }
void main() { PAR(f, g); o = x; }
PROGRAM
row "a weak abort in a loop" '1\n1\n0\n0\n' 1 14 27 29 <<PROGRAM
$io void main() { while (1) { weak abort { o = o + 1; EOT; o = o + 2; EOT; } when pre (a); o = o + 10; } }
PROGRAM
row "a weak abort in a strong one" '1\n0\n' 0 100 <<PROGRAM
$io void main() { abort { weak abort { EOT; o = o + 1; EOT; } when pre (a); o = o + 10; EOT; } when pre (a); o = o + 100; }
PROGRAM
row "a strong abort in a weak one" '1\n0\n' 0 1010 <<PROGRAM
$io void main() { weak abort { abort { EOT; o = o + 1; } when pre (a); o = o + 10; EOT; o = o + 100; } when pre (a); o = o + 1000; }
PROGRAM
row "a strong abort" '0\n1\n0\n' 1 2 100 <<PROGRAM
$io void main() { abort { while (1) { o = o + 1; EOT; } } when pre (a); o = 100; }
PROGRAM
row "the last thread ends a PAR" '\n\n\n' 0 0 1 <<'PROGRAM'
ReactiveOutput int o = 0; void f() { EOT; } void g() { EOT; EOT; } void main() { PAR(f, g); o = 1; }
PROGRAM
row "loops with a number" '\n' '0 3' <<'PROGRAM'
ReactiveOutput int o = 0; ReactiveOutput int p = 0;
void main() { while (1) #0 { o = o + 1; } while (1) #3 { p = p + 1; } EOT; }
PROGRAM
row "values at the edges" '\n' '0 7 -2147483648 2 6' <<'PROGRAM'
ReactiveOutput int q = 0; ReactiveOutput int r = 0; ReactiveOutput int d = 0; ReactiveOutput int s = 0; ReactiveOutput int b = 0;
int z = 0; int v[2];
void main() { q = 7 / z; r = 7 % z; d = -2147483648 / -1; s = 1 << 33; v[2] = 5; v[0] = 6; b = v[-1] + v[2] + v[0]; EOT; }
PROGRAM
# an abort is looked at in the tick after its entry for the first time; its condition is read before the inputs are set
row "conditions of the last tick" '1\n0\n1\n0\n' 0 1 102 103 <<PROGRAM
$io void main() { EOT; abort while (1) { o = o + 1; EOT; } when pre (a == 0); o = o + 100; while (1) { o = o + 1; EOT; } }
PROGRAM
row "the index after the call" '\n' '0 7' <<'PROGRAM'
ReactiveOutput int first = 0; ReactiveOutput int second = 0; int i = 0; int v[2];
int f() { i = 1; return 7; }
void main() { v[i] = f(); first = v[0]; second = v[1]; }
PROGRAM

sampler="$top/examples/whole/sampler.pc"
printf '0 10\n0 20\n1 30\n0 40\n0 50\n' >trace
due 0 10 20 0 40 >wanted
"$program" mean "$sampler" <trace >out; status=$?
expect 0 wanted "the sampler"
# blanks, tabs, a carriage return, a last line without a line feed; then bad lines, behind the ticks before them
first="$top/examples/p1.pc"
due 5 5 >wanted
printf '\t4 \r\n5' >trace
"$program" mean "$first" <trace >out; status=$?
expect 0 wanted "blanks in a trace"
printf 'tick 0: 5\ntrace T4 line 2\n' >wanted
{ echo 4; head -c 1025 /dev/zero | tr '\0' ' '; echo; } >trace
"$program" mean "$first" <trace >out; status=$?
expect 7 wanted "a long line"
printf 'tick 0: 5\ntick 1: 5\ntrace T1 line 3\n' >wanted
printf '4\n5\n2147483648\n' >trace
"$program" mean "$first" <trace >out; status=$?
expect 7 wanted "a number over the greatest"
printf 'tick 0: 5\ntrace T2 line 2\n' >wanted
printf '4\n\n' >trace
"$program" mean "$first" <trace >out; status=$?
expect 7 wanted "a line without a number"
# a million ticks, and one line more
echo 'void main() { }' >none.pc
{ seq 0 999999 | sed 's/.*/tick &:/'; echo "trace T3 line 1000001"; } >wanted
yes '' | head -1000001 >trace
"$program" mean none.pc <trace >out; status=$?
expect 7 wanted "1,000,001 lines"
# generated programs: the sum of the outputs of 1,000 ticks is 16500 * n * (n + 1) / 2
seq 0 999 | sed 's/.*\(.\)$/\1/' >trace
for n in 1 5 62; do
  "$program" gen "$n" >gen.pc </dev/null || wrong "gen $n: a status"
  "$program" mean gen.pc <trace >out; status=$?
  [ "$status" = 0 ] || wrong "mean of gen $n: status $status"
  [ "$(awk '/^tick /{ sum += $3 } END { print sum }' out)" = $((16500 * n * (n + 1) / 2)) ] || wrong "mean of gen $n: another sum"
  [ "$(tail -1 out)" = "ticks 1000" ] || wrong "mean of gen $n: another last line"
  cp out wanted
  goes gen.pc trace wanted "gen $n"
done
[ "$(ls | tr '\n' ' ')" = "gen.pc im none.pc out row.pc ticks trace wanted " ] || wrong "mean: it stored a file"
[ "$failed" = 0 ] && echo "meanings: all as they must be"
exit "$failed"
