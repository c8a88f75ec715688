#!/usr/bin/env bash
# The built program on real files: each example's whole report, and what becomes of it where the outside fails.
set -u
. "$(dirname "${BASH_SOURCE[0]}")/common/program.bash"

for source in "$top"/examples/*.pc; do
  name="$(basename "$source" .pc)"
  "$program" go "$source" "$name.im" <"$top/examples/$name.trace" >out; status=$?
  expect 0 "$top/examples/$name.report" "$name"
  [ "$(head -1 "$name.im")" = "ARPRET 1" ] || wrong "$name: no image"
done

first="$top/examples/p1.pc"
line() { printf '%s\n' "$1" >wanted; }

line "no file"; "$program" go missing im </dev/null >out; status=$?
expect 17 wanted "a missing file"; [ -e im ] && wrong "a missing file: an image is stored"
mkdir folder
line "read fault"; "$program" go folder im </dev/null >out; status=$?
expect 3 wanted "a folder in place of the program"
line "store fault"; "$program" go "$first" nowhere/im </dev/null >out; status=$?
expect 11 wanted "an image in a folder that isn't there"
line "store fault"; "$program" go "$first" folder </dev/null >out; status=$?
expect 11 wanted "a folder in place of the image"
line "usage"; "$program" </dev/null >out; status=$?
expect 2 wanted "no word"
line "usage"; "$program" go "$first" "$first" </dev/null >out; status=$?
expect 2 wanted "equal names"
printf 'void main() {\n  while (1)\n    EOT;\n}\n' >loop.pc
printf 'void main() { EOT' >cut.pc
line "refused S1 17 17"; "$program" go cut.pc im2 </dev/null >out; status=$?
expect 1 wanted "a program that is cut short"; [ -e im2 ] && wrong "refused: an image is stored"
line "refused S1 17 17"; "$program" print cut.pc </dev/null >out; status=$?
expect 1 wanted "the text of a program that is cut short"
# the verdict: the counts of a program, or the first rule that it breaks
line "accepted threads 1 words 2 weight 40 single 40"; "$program" rules "$first" </dev/null >out; status=$?
expect 0 wanted "the counts of a program"
alarm="$top/examples/whole/alarm.pc"
line "accepted threads 3 words 4 weight 124 single 124"; "$program" rules "$alarm" </dev/null >out; status=$?
expect 0 wanted "the counts of threads and an abort"
"$program" print "$alarm" </dev/null >out; status=$?
expect 0 "$alarm" "the text of threads and an abort"
printf 'int x = 0;\nvoid main() { while (1) { x = 1; } }' >spin.pc
for command in "rules spin.pc" "go spin.pc im2"; do
  line "refused E1 25 30"; "$program" $command </dev/null >out; status=$?
  expect 1 wanted "$command"; [ -e im2 ] && wrong "$command: an image is stored"
done
printf 'void main() { x = 1; }' >unknown.pc
line "refused N2 14 15"; "$program" rules unknown.pc </dev/null >out; status=$?
expect 1 wanted "an unknown name"
line "no file"; "$program" rules missing </dev/null >out; status=$?
expect 17 wanted "the rules of a missing file"
# each example is its own canonical text
for source in "$top"/examples/*.pc loop.pc; do
  "$program" print "$source" </dev/null >out; status=$?
  expect 0 "$source" "the text of $(basename "$source")"
done
# a program with every construct, in canonical form
cat >every.pc <<'TEXT'
ReactiveInput int a = 0;
ReactiveOutput int o = -1;
int x = 2147483647;
int v[4];
int f(int m, int n) {
  int i;
  int j = m * (n + 1) - -n;
  v[i + 1] = j % 3 << 2;
  return (m - n - (j - i)) / !(a && ~j || 0);
}
void t() {
  while (1)
    {
      x = f(a, v[x]);
      EOT;
    }
}
void main() {
  ;
  {
  }
  if (a == 1 | x != 2 ^ 3 & x)
    if (x <= a)
      o = x >> 1;
    else
      o = - - -x;
  while (x >= 0) #4
    x = x - (a > x) - (a < x);
  abort
    weak abort
      PAR(t, t);
    when pre (a == 9);
  when pre (x);
  t();
}
TEXT
"$program" print every.pc </dev/null >out; status=$?
expect 0 every.pc "a program with every construct"
# 31 loops in one another, the last at the deepest level that has a part, and 64 levels of an expression
{
  printf 'int x = 0;\nvoid main() {\n'
  for level in $(seq 1 31); do printf "%$((2 * level))swhile (1)\n" ''; done
  printf "%64s;\n" ''
  printf '  x = '; for level in $(seq 1 64); do printf '!'; done; printf 'x;\n}\n'
} >deep.pc
"$program" print deep.pc </dev/null >out; status=$?
expect 0 deep.pc "the deepest nesting"
printf 'int x=0;void main(){x=(1+2)*x;EOT;}' >tight.pc
printf 'int x = 0;\nvoid main() {\n  x = (1 + 2) * x;\n  EOT;\n}\n' >wanted
"$program" print tight.pc </dev/null >out; status=$?
expect 0 wanted "the canonical text"
printf 'tick 0: 5 cycles 8\ntrace T1 line 2\n' >wanted; printf '4\nx\n' | "$program" go "$first" im3 >out; status=$?
expect 7 wanted "a bad line"; [ -e im3 ] || wrong "a bad line: no image"
head -c 1048577 /dev/zero | tr '\0' ' ' >long.pc
line "refused Z1 1048576 1048576"; "$program" go long.pc im4 </dev/null >out; status=$?
expect 1 wanted "a source of 1,048,577 bytes"
# check: the counter's certificate, and what is refused; the files stay as they were
image="$top/examples/counter.im"; cert="$top/examples/counter.cert"
line "yes bound 8 reached"; "$program" check "$image" "$cert" - </dev/null >out; status=$?
expect 0 wanted "the counter's certificate"
sed 's/^bound 8$/bound 9/' "$cert" >wide; line "yes bound 9"; "$program" check "$image" wide - </dev/null >out; status=$?
expect 0 wanted "a wider bound"
sed 's/^bound 8$/bound 7/' "$cert" >narrow; line "no A7 at 0 level 0 needed 8 given 7"; "$program" check "$image" narrow - </dev/null >out; status=$?
expect 9 wanted "a bound that is too small"
sed 's/^T 0 0 0 4 -$/T 0 0 0 3 -/' "$cert" >low; line "no A3 at 0 level 0 needed 4 given 3"; "$program" check "$image" low - </dev/null >out; status=$?
expect 9 wanted "a number that is too small"
head -c -1 "$cert" >short; line "cert K6"; "$program" check "$image" short - </dev/null >out; status=$?
expect 8 wanted "a certificate without its last byte"
(cat "$cert"; echo) >long; line "cert K7"; "$program" check "$image" long - </dev/null >out; status=$?
expect 8 wanted "a certificate with one byte more"
(cat "$image"; echo) >longim; line "image I10"; "$program" check longim "$cert" - </dev/null >out; status=$?
expect 8 wanted "an image with one byte more"
sed 's/^30630001$/ffffffff/' "$image" >odd; cp odd kept; line "no A1 at 1 level 0 needed 0 given 0"; "$program" check odd "$cert" - </dev/null >out; status=$?
expect 9 wanted "a word that is none"; cmp -s odd kept || wrong "a word that is none: the image changed"
line "no file"; "$program" check "$image" "$cert" costs </dev/null >out; status=$?
expect 17 wanted "a missing table of costs"
table="$top/examples/costs.toml"
line "no A3 at 0 level 0 needed 5 given 4"; "$program" check "$image" "$cert" "$table" </dev/null >out; status=$?
expect 9 wanted "a table of costs"
grep -v '^tick' "$table" >lacking; line "costs C2 tick"; "$program" check "$image" "$cert" lacking </dev/null >out; status=$?
expect 6 wanted "a table without a class"
sed 's/^div = 32/div = 0/' "$table" >free; line "costs C3 div"; "$program" check "$image" "$cert" free </dev/null >out; status=$?
expect 6 wanted "a class that costs nothing"
(cat "$table"; echo 'tock = 1') >more; line "costs C4"; "$program" check "$image" "$cert" more </dev/null >out; status=$?
expect 6 wanted "a table with one key more"
line "no file"; "$program" check missing "$cert" - </dev/null >out; status=$?
expect 17 wanted "a missing image"
line "no file"; "$program" check "$image" missing - </dev/null >out; status=$?
expect 17 wanted "a missing certificate"
line "read fault"; "$program" check folder "$cert" - </dev/null >out; status=$?
expect 3 wanted "a folder in place of the image"
# exec: the bound and the report of the accepted image; a certificate that isn't accepted runs nothing
printf '4\n5\n' >trace
printf 'bound 8\ntick 0: 5 cycles 7\ntick 1: 6 cycles 8\nticks 2 worst 8\n' >wanted
"$program" exec "$image" "$cert" - <trace >out; status=$?
expect 0 wanted "the counter runs"
printf 'bound 8\nticks 0 worst 0\n' >wanted; "$program" exec "$image" "$cert" - </dev/null >out; status=$?
expect 0 wanted "the counter on the empty trace"
printf 'bound 8\ntick 0: 5 cycles 7\ntrace T1 line 2\n' >wanted; printf '4\nx\n' | "$program" exec "$image" "$cert" - >out; status=$?
expect 7 wanted "the counter on a bad line"
line "no A7 at 0 level 0 needed 8 given 7"; "$program" exec "$image" narrow - <trace >out; status=$?
expect 9 wanted "exec with a bound that is too small"
line "costs C4"; "$program" exec "$image" "$cert" more <trace >out; status=$?
expect 6 wanted "exec with a table with one key more"
line "no file"; "$program" exec "$image" missing - <trace >out; status=$?
expect 17 wanted "exec without a certificate"
line "read fault"; "$program" exec folder "$cert" - <trace >out; status=$?
expect 3 wanted "exec of a folder"
sed -e 's/^bound 8$/bound 26/' -e 's/^T 0 0 0 5 -$/T 0 0 0 11 -/' -e 's/^T 0 0 0 4 -$/T 0 0 0 9 -/' -e 's/^T 0 0 0 3 -$/T 0 0 0 7 -/' \
  -e 's/^T 0 0 0 2 -$/T 0 0 0 6 -/' -e 's/^T 0 0 0 1 -$/T 0 0 0 4 -/' -e 's/^5 -$/11 -/' "$cert" >dear
line "yes bound 26 reached"; "$program" check "$image" dear "$table" </dev/null >out; status=$?
expect 0 wanted "a certificate for a table of costs"
printf 'bound 26\ntick 0: 5 cycles 24\ntick 1: 6 cycles 26\nticks 2 worst 26\n' >wanted
"$program" exec "$image" dear "$table" <trace >out; status=$?
expect 0 wanted "the counter runs at a table of costs"
printf 'ARPRET 1\ncode 3\ne8600008\nfc200000\nb800fff8\nmemory 2\n0\n0\ninputs 0\noutputs 0\nslots 1\n0\naborts 0\npauses 1\n1 0 0\nforks 0\n' >far
printf 'PRETCERT 1\nbound 4\nat 3\nT 0 0 0 2 -\nT 0 0 0 1 -\nT 0 0 0 3 -\nloops 0\nslots 1\n3 -\nwalk 1\np 1\nchoices 0\n\n' >farcert
printf 'bound 4\ntrace T2 line 1\n' >wanted; "$program" exec far farcert - <trace >out; status=$?
expect 7 wanted "a trace of another width"
printf 'bound 4\ntrap BadAddress at 0 tick 0\n' >wanted; printf '\n\n' >blank; "$program" exec far farcert - <blank >out; status=$?
expect 10 wanted "a load past the memory"
if [ -e /dev/full ]; then
  "$program" go "$first" im5 <trace >/dev/full; status=$?
  [ "$status" = 4 ] || wrong "a full device: status $status"
  [ -e im5 ] || wrong "a full device: no image"
  "$program" exec "$image" "$cert" - <trace >/dev/full; status=$?
  [ "$status" = 4 ] || wrong "exec to a full device: status $status"
fi
"$program" go "$first" im6 <trace >&-; status=$?
[ "$status" = 4 ] || wrong "a closed output: status $status"
[ "$failed" = 0 ] && echo "examples: all as they must be"
exit "$failed"
