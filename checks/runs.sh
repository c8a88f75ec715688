#!/usr/bin/env bash
# `run` of the built program on each example under three tables of costs: the certificate that it stores is accepted, with the
# bound that it prints, and `exec` of the stored files writes the same bytes; the image is that of `go`, and the outputs those of
# `mean`. Then what becomes of a run that fails, and the totals of jobs.
set -u
. "$(dirname "${BASH_SOURCE[0]}")/common/program.bash"

costs="$top/examples/costs.toml"
sed 's/= *[0-9]*/= 255/' "$costs" >dear.toml
for source in "$top"/examples/*.pc "$top"/examples/whole/*.pc; do
  name="$(basename "$source" .pc)"
  trace="${source%.pc}.trace"
  "$program" go "$source" go.im <"$trace" >/dev/null
  "$program" mean "$source" <"$trace" >meant
  for table in - "$costs" dear.toml; do
    rm -f im ce
    "$program" run "$source" "$table" im ce <"$trace" >report; status=$?
    [ "$status" = 0 ] || wrong "$name under $table: status $status"
    cmp -s im go.im || wrong "$name under $table: another image than that of go"
    bound="$(sed -n '1s/^bound //p' report)"
    printf 'yes bound %s reached\n' "$bound" >wanted
    "$program" check im ce "$table" </dev/null >out; status=$?
    expect 0 wanted "the certificate of $name under $table"
    "$program" exec im ce "$table" <"$trace" >out; status=$?
    expect 0 report "exec of $name under $table"
    sed '1d; s/ cycles [0-9]*$//; s/ worst [0-9]*$//' report >out; status=0
    expect 0 meant "the outputs of $name under $table"
  done
done

first="$top/examples/p1.pc"
line() { printf '%s\n' "$1" >wanted; }
rm -f im ce
line "usage"; "$program" run "$first" - im im </dev/null >out; status=$?
expect 2 wanted "a run with equal names"
line "no file"; "$program" run missing - im ce </dev/null >out; status=$?
expect 17 wanted "a run of a missing program"
line "no file"; "$program" run "$first" missing im ce </dev/null >out; status=$?
expect 17 wanted "a run under a missing table"
while IFS='|' read -r change answer; do
  sed "$change" "$costs" >table.toml
  line "$answer"; "$program" run "$first" table.toml im ce </dev/null >out; status=$?
  expect 6 wanted "a run under a table changed by $change"
done <<'TABLES'
/^cend/d|costs C2 cend
s/^alu .*/alu = 0/|costs C3 alu
s/^alu .*/alu = 256/|costs C3 alu
$a nop = 1|costs C4
s/^alu .*/alu = /|costs C1
TABLES
printf 'int x = 0;\nvoid main() { while (1) { x = 1; } }' >spin.pc
line "refused E1 25 30"; "$program" run spin.pc - im ce </dev/null >out; status=$?
expect 1 wanted "a run of a program that spins"
[ -e im ] || [ -e ce ] && wrong "a run that was refused: a file is stored"
line "store fault"; "$program" run "$first" - nowhere/im ce </dev/null >out; status=$?
expect 11 wanted "a run whose image can't be stored"; [ -e ce ] && wrong "an image that can't be stored: a certificate is"
line "store fault"; "$program" run "$first" - im nowhere/ce </dev/null >out; status=$?
expect 11 wanted "a run whose certificate can't be stored"; [ -e im ] || wrong "a certificate that can't be stored: no image"

for threads in 1 2 5 62; do
  "$program" job "$threads" </dev/null >out; status=$?
  [ "$status" = 0 ] || wrong "job $threads: status $status"
  bound="$(sed -n '2s/^bound //p' out)"
  worst="$(sed -n '3s/^.* worst //p' out)"
  sum=$((16500 * threads * (threads + 1) / 2))
  printf 'threads %s\nbound %s\nticks 1000 sum %s worst %s\n' $((threads + 2)) "$bound" "$sum" "$worst" >wanted
  expect 0 wanted "job $threads"
  [ "$worst" -le "$bound" ] || wrong "job $threads: a tick is over the bound"
  "$program" gen "$threads" >job.pc
  "$program" run job.pc - im ce </dev/null >out; status=$?
  printf 'bound %s\nticks 0 worst 0\n' "$bound" >wanted
  expect 0 wanted "the bound of job $threads"
done
[ "$failed" = 0 ] && echo "runs: all as they must be"
exit "$failed"
