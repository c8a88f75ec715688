#!/usr/bin/env bash
# The front door on each rule of docs/rules.md: the built program refuses the smallest source with the answer that
# stands there, and what is said on standard error is the place, the sentence and the advice; nothing else changes.
set -u
. "$(dirname "${BASH_SOURCE[0]}")/common/program.bash"
rules="$top/docs/rules.md"

# cells RULE: the cells of its row, one a line
cells() { awk -F ' [|] ' -v rule="| $1" '$1 == rule { for (i = 2; i <= NF; i++) { sub(/ [|]$/, "", $i); print $i } }' "$rules"; }
# said RULE: the two lines that end what is said of it
said() {
  local row name="$1"
  mapfile -t row < <(cells "$1")
  [ "${#row[@]}" -ge 2 ] || wrong "$1: no row"
  case "$1" in [0-9]*) name="status $1" ;; esac
  printf '%s: %s\nto mend it: %s\n' "$name" "${row[0]}" "${row[-1]}"
}
# front NAME STATUS WORD..: the front door's status and both its outputs, against the files wanted and wanted_err
front() {
  local name="$1" due="$2"
  shift 2
  PRETC_EXPLAIN=always "$top/pretc" "$@" >out 2>err </dev/null; status=$?
  expect "$due" wanted "$name"
  cmp -s err wanted_err || { wrong "$name: another explanation"; diff wanted_err err; }
}
# marks COLUMN COUNT: carets below a line that is shown as line 1
marks() { printf '    | %*s%s\n' "$1" '' "$(printf '%*s' "$2" '' | tr ' ' '^')"; }
# heres RULE: the line that tells what is meant, where there is one for its smallest source
heres() {
  case "$1" in
  S1) echo "here: $(advice 'x = 1')" ;;
  N3) echo 'here: `v` is an array: write `v[i]`' ;;
  N6) echo 'here: no function is `void main()`' ;;
  Z8) echo 'here: the loop with the most turns is in line 1: #100000' ;;
  esac
}
# advice WRITTEN: what is said where that is written
advice() { awk -F ' [|] ' -v row="| \`$1\`" '$1 == row { sub(/ [|]$/, "", $2); print $2 }' "$rules"; }
# source_of RULE FROM TO: the front door on s.pc, a source of one line
source_of() {
  local rule="$1" from="$2" to="$3" text
  text="$(head -c 100 s.pc)"
  printf 'refused %s %s %s\n' "$rule" "$from" "$to" >wanted
  if [ "$from" = "$to" ]; then
    { echo "pretc: s.pc: $rule at the end"; echo "  1 | $text"; marks "$from" 1; heres "$rule"; said "$rule"; } >wanted_err
  else
    { echo "pretc: s.pc, line 1, column $((from + 1)): $rule"; echo "  1 | $text"; marks "$from" $((to - from)); heres "$rule"; said "$rule"; } >wanted_err
  fi
  front "$rule" 1 rules s.pc
}
tried=0
for rule in $(grep -oE '^\| [LSNEZ][0-9] ' "$rules" | tr -d '| '); do
  mapfile -t row < <(cells "$rule")
  if [[ "${row[2]}" =~ ^\`(.*)\`:\ \`([0-9]+)\ ([0-9]+)\`$ ]]; then
    printf '%s' "${BASH_REMATCH[1]}" >s.pc
    source_of "$rule" "${BASH_REMATCH[2]}" "${BASH_REMATCH[3]}"
    tried=$((tried + 1))
  fi
done
[ "$tried" = 16 ] || wrong "$tried smallest sources, not 16"

# those whose smallest source is long: the answer alone, and the sentence
long() {
  local rule="$1"
  printf 'refused %s\n' "$1 $2" >wanted
  PRETC_EXPLAIN=always "$top/pretc" rules s.pc >out 2>err </dev/null; status=$?
  expect 1 wanted "$rule"
  said "$rule" >wanted_err
  tail -n 2 err | cmp -s - wanted_err || wrong "$rule: another explanation"
}
ended() { long "$1" "$(wc -c <s.pc) $(wc -c <s.pc)"; }
names() { seq -f "$1%g" -s "$2" "$3"; }
head -c 1048577 /dev/zero | tr '\0' ' ' >s.pc; long Z1 "1048576 1048576"
{ for k in $(seq 64); do printf 'void t%d() { }\n' "$k"; done; printf 'void main() { PAR(%s); }' "$(names t , 64)"; } >s.pc; ended Z2
times() { for _ in $(seq "$1"); do printf '%s' "$2"; done; }
echo "void main() { $(times 9 'abort ')EOT;$(times 9 ' when pre (0);') }" >s.pc
long Z4 "62 67"
echo "void main() { $(times 9 'while (0) #0 '); }" >s.pc; long Z5 "118 123"
{ echo 'void r1() { }'; for k in $(seq 2 17); do printf 'void r%d() { r%d(); }\n' "$k" $((k - 1)); done; echo 'void main() { }'; } >s.pc
place="$(($(grep -bo 'r17' s.pc | head -1 | cut -d: -f1)))"; long Z6 "$place $((place + 3))"
printf '%s' "int x; void main() { $(times 7500 'x = 1; ')}" >s.pc; ended Z7
{ for k in $(seq 65); do printf 'ReactiveInput int i%d = 0;\n' "$k"; done; printf 'void main() { }'; } >s.pc; ended Z9

# a source of several lines, with a tab and a letter of two bytes before the place
printf '// \xc3\xa4\nint x = 0;\nvoid main() {\n\t/* \xc3\xa4 */ y = 1;\n}\n' >s.pc
echo "refused N2 41 42" >wanted
{ echo "pretc: s.pc, line 4, column 10: N2"; printf '  4 | \t/* \xc3\xa4 */ y = 1;\n    | \t        ^\n'; said N2; } >wanted_err
front "several lines" 1 rules s.pc
# the line before, where the token is the first of its line
printf 'int x = 0;\nvoid main() {\n  x = x + 1\n\n  EOT;\n}\n' >s.pc
echo "refused S1 40 43" >wanted
{ printf 'pretc: s.pc, line 5, column 3: S1\n  3 |   x = x + 1\n  5 |   EOT;\n    |   ^^^\n'; echo "here: $(advice 'x = 1')"; said S1; } >wanted_err
front "a token that is first on its line" 1 rules s.pc
# what C has and PRET-C hasn't: by what is written, by a word of the line outside of comments, or by the mark at the place
here() {
  printf '%s\n' "$2" >s.pc
  PRETC_EXPLAIN=always "$top/pretc" rules s.pc >out 2>err </dev/null
  [ "$(grep '^here: ' err)" = "${1:+here: $1}" ] || wrong "$2: $(cat err)"
}
here 'there is no `++` and no `--`: write `i = i + 1;`' 'int i; void main() { i++; }'
here 'there is no `++` and no `--`: write `i = i + 1;`' 'int i; void main() { i--; }'
here 'there is one loop: `while (c) #n` with the most turns, or `while (c)` whose body pauses' 'int i; void main() { for (i = 0; i < 3; i++) ; }'
here 'every value is an `int` of 32 bits' 'unsigned x;'
here 'there are no strings and no characters: write the number' 'int x; void main() { x = "a"; }'
here 'write `1` and `0`' 'int x; void main() { x = true; }'
here 'write `if` and `else`; a loop ends by its condition, and an abort leaves from anywhere' 'int x; void main() { switch (x) { } }'
# a word that the source declares is a name
here "$(advice 'x = 1')" 'int switch; void main() { if (switch) switch = 1 switch = 2; }'
here "$(advice 'x = 1')" 'int x; void main() { /* for */ x = 1 }'
here '' 'int x; void main() { x = 2 + ; }'
while IFS='@' read -r row source; do
  due="$(advice "$row")"
  [ -n "$due" ] || wrong "$row: no such row"
  here "$due" "$source"
done <<'ROWS'
#define N 4@#define N 4
if (x = 1)@int x; void main() { if (x = 1) EOT; }
if (x = 1)@int x; void main() { while (x = 1) EOT; }
x == 1;@int x; void main() { x == 1; }
int *p;@int *p; void main() { }
int *p;@int x; int y; void main() { x = &y; }
int *p;@int x; void main() { *x = 0; }
main() { }@main() { EOT; }
int main() { }@int main() { EOT; }
int f() { }@int f() { int x = 1; } void main() { }
while (c) #n@int x; void main() { while (x) #n { } }
int v[N];@int v[N]; void main() { }
int v[N];@int v[-4]; void main() { }
int v[2] = {0, 0};@int v[2] = {0, 0}; void main() { }
ReactiveInput int a;@ReactiveInput int a; void main() { }
abort { } when (c);@int x; void main() { abort { EOT; } when (x); }
abort x = 1 when pre (c);@int x; void main() { abort EOT when pre (x); }
abort { } when pre (c)@int x; void main() { abort { EOT; } when pre (x) EOT; }
abort { }; when pre (c);@int x; void main() { abort { EOT; }; when pre (x); }
abort { }@int x; void main() { abort { EOT; } x = 1; }
x = pre (y);@int x; void main() { x = pre (x); }
PAR();@void main() { PAR(); }
PAR(f());@void f() { EOT; } void main() { PAR(f()); }
else@int x; void main() { EOT; else x = 1; }
void main() {@void main() { EOT;
}@void main() { EOT; } }
int k = f(a);@int f() { return 1; } void main() { int k = f(); }
void f() { void g() { }@int x; void f() { x = 1; void main() { }
void f() { void g() { }@int x; void f() { x = 1; int g() { return 1; } void main() { }
EOT();@void main() { EOT(); }
x = y = 0;@int x; int y; void main() { x = y = 0; }
while x@int x; void main() { while !x EOT; }
while x@int x; void main() { abort EOT; when pre x; }
int k = 2 * 3;@int k = 2 * 3; void main() { }
weak PAR(f);@void f() { EOT; } void main() { weak PAR(f); }
x = f(a) + 1;@int x; int f() { return 1; } void main() { x = f() + 1; }
x = 1@int x; void main() { int y = 0 int z; }
x = 1@int f() { int y; y = 0 return y; } void main() { }
x = 1, y = 2;@int x; int y; void main() { x = 1, y = 2; }
(int) x@int x; void main() { x = (int) x; }
x->y@int x; int y; void main() { x = x->y; }
ROWS
here 'a keyword is meant, and written otherwise: `EOT`' 'void main() { eot; }'
here 'a keyword is meant, and written otherwise: `else`' 'int x; void main() { if (x) x = 1; elseif (x) x = 2; }'
here 'a keyword is meant, and written otherwise: `ReactiveInput`' 'ReactivInput int a = 0; void main() { }'
here '`x` is a single word: it has no index' 'int x; void main() { x[0] = 1; }'
here 'no function is `void main()`' 'void run() { EOT; }'
here 'the loop with the most turns is in line 1: #100000' 'int x; void main() { while (1) #2 x = 1; while (1) #100000 x = 1; }'
here '`f` is started twice, which N7 forbids' 'void f() { EOT; } void g() { EOT; } void main() { PAR(f, f); }'
printf '// \xc3\xa4\nint x = 0;\nvoid main() {\n\t/* \xc3\xa4 */ y = 1;\n}\n' >s.pc
echo "refused N2 41 42" >wanted
# nothing is said where it isn't asked for
for asked in never ""; do
  PRETC_EXPLAIN="$asked" "$top/pretc" rules s.pc >out 2>err </dev/null; status=$?
  expect 1 wanted "PRETC_EXPLAIN=$asked"; [ -s err ] && wrong "PRETC_EXPLAIN=$asked: something is said"
done
echo usage >wanted; { said 2; echo "  ./pretc rules PROGRAM"; } >wanted_err; front "usage" 2 rules
{ said 2; echo "  ./pretc gen N"; echo "  N is a number of threads from 1 to 62"; } >wanted_err; front "usage of gen" 2 gen 63
{
  said 2
  printf '  ./pretc %s\n' 'rules PROGRAM' 'print PROGRAM' 'go PROGRAM IMAGE < TRACE' 'run PROGRAM COSTS IMAGE CERT < TRACE' 'mean PROGRAM < TRACE'
  printf '  ./pretc %s\n' 'check IMAGE CERT COSTS' 'exec IMAGE CERT COSTS < TRACE' 'gen N' 'job N'
  echo '  COSTS is a file, or `-` where each class of words costs 1'
  echo '  N is a number of threads from 1 to 62'
  echo '  the words name different files'
} >wanted_err
front "usage of nothing" 2
echo "no file" >wanted
{ echo "pretc: missing: no such file"; said 17; } >wanted_err; front "no file" 17 rules missing
{ echo "pretc: missing: no such file"; said 17; } >wanted_err; front "no certificate" 17 check "$top/examples/counter.im" missing -

# the image, the certificate and the checker's no, on the counter
image="$top/examples/counter.im"; cert="$top/examples/counter.cert"
# damaged RULE FILE LINE EDIT: the edit of sed breaks the group, and the line is shown; 0 is the end of the file
damaged() {
  local rule="$1" file="$2" number="$3" im="$image" ce="$cert"
  if [ "$file" = image ]; then sed "$4" "$image" >bad; im=bad; else sed "$4" "$cert" >bad; ce=bad; fi
  echo "$file $rule" >wanted
  if [ "$number" = 0 ]; then
    echo "pretc: bad: $rule at the end of the file"
  else
    local line margin; line="$(sed -n "${number}p" bad)"; margin="$(printf '%*s' "${#number}" '')"
    printf 'pretc: bad, line %d: %s\n  %d | %s\n  %s | %s\n' "$number" "$rule" "$number" "$line" "$margin" \
      "$(printf '%*s' "$((${#line} > 0 ? ${#line} : 1))" '' | tr ' ' '^')"
  fi >wanted_err
  said "$rule" >>wanted_err
  front "$rule" 8 check "$im" "$ce" -
}
while IFS='|' read -r rule file number edit; do damaged "$rule" "$file" "$number" "$edit"; done <<'ROWS'
I1|image|1|s/^ARPRET 1/ARPRET 2/
I2|image|4|s/^30630001/3063000A/
I3|image|9|9s/0/-0/
I4|image|12|12s/0/2/
I5|image|14|14s/1/2/
I6|image|16|16s/0/5/
I7|image|18|17s/0/1/;17a s 5 0
I8|image|19|s/^3 0 0/3 0 1 0/
I9|image|0|$d
I10|image|21|$a x
K1|cert|1|s/^PRETCERT 1/PRETCERT 2/
K2|cert|2|s/^bound 8/bound -/
K3|cert|5|5s/ -$//
K4|cert|9|s/^loops 0/loops x/
K5|cert|10|s/^slots 1/slots 0/
K6|cert|13|s/^p 3/q 3/
K7|cert|16|$a x
ROWS
# no RULE LINE PLACE NEEDED GIVEN EDIT: the edit of the certificate is refused, with the word and the line of the place
no() {
  local rule="$1" number="$2" at="$3" needed="$4" given="$5"
  sed "$6" "$cert" >bad
  echo "no $rule at $at level 0 needed $needed given $given" >wanted
  {
    if [ "$rule" = A7 ]; then echo "pretc: bad: A7"; else echo "pretc: bad: $rule at place $at"; fi
    [ "$rule" = A7 ] || echo "  code place $at: $(sed -n "$((at + 3))p" "$image")  $(sed -n "$((at + 1))p" words)"
    echo "  line $number of the certificate: $(sed -n "${number}p" bad)"
    [ "$rule" = A1 ] || echo "  needed $needed, given ${given/#-/none}"
    said "$rule"
  } >wanted_err
  front "$rule" 9 check "$image" bad -
}
printf '%s\n' 'lwi r3, r0, 0' 'addik r3, r3, 1' 'swi r3, r0, 4' eot 'bri -16' >words
no A1 4 0 0 0 '5s/.*/-/'
no A3 4 0 4 3 '4s/4 -/3 -/'
no A4 7 3 1 0 '7s/1 -/0 -/'
no A6 7 3 5 - '11s/5/-/'
no A7 2 0 8 7 's/^bound 8/bound 7/'

# what no command that is built answers: a stand-in for the program prints the line
stand_in() { printf '#!/bin/sh\necho "%s"\n' "$1" >program; chmod +x program; }
# aside NAME STATUS WORD..: what is said after such a line
aside() {
  local name="$1"
  shift
  "$top/tools/explain" ./program "$1" "${start:-0}" "${@:2}" >out 2>err <input; status=$?
  : >wanted; expect 0 wanted "$name"
  cmp -s err wanted_err || { wrong "$name: another explanation"; diff wanted_err err; }
}
: >input
for rule in A2 A5; do
  stand_in "no $rule at 1 level 0 needed 6 given 5"
  { echo "pretc: $cert: $rule at place 1"; echo "  code place 1: 30630001  addik r3, r3, 1"; echo "  line 5 of the certificate: T 0 0 0 3 -"
    [ "$rule" = A2 ] || echo "  needed 6, given 5"; said "$rule"; } >wanted_err
  aside "$rule" 9 check "$image" "$cert" -
done
# marked FILE LINE RULE TEXT: the line of a file that is shown
marked() {
  printf 'pretc: %s, line %d: %s\n  %d | %s\n' "$1" "$2" "$3" "$2" "$4"
  printf '  %*s | %s\n' "${#2}" '' "$(times "$((${#4} > 0 ? ${#4} : 1))" '^')"
}
printf 'alu = 0\nnop = 1\n' >costs
stand_in "costs C1"
{ echo "pretc: costs: C1"; said C1; } >wanted_err
aside C1 6 check "$image" "$cert" costs
printf 'alu = 1\nmul : 3\n' >costs
{ marked costs 2 C1 "mul : 3"; said C1; } >wanted_err
aside "C1, a line" 6 check "$image" "$cert" costs
printf 'alu = 1\nmul = 3\nalu = 2\n' >costs
{ marked costs 3 C1 "alu = 2"; said C1; } >wanted_err
aside "C1, a key twice" 6 check "$image" "$cert" costs
printf 'alu = 0\nnop = 1\n' >costs
stand_in "costs C2 cend"
{ echo "pretc: costs: C2 cend"; said C2; } >wanted_err
aside C2 6 run s.pc costs im ce
stand_in "costs C3 alu"
{ marked costs 1 C3 "alu = 0"; said C3; } >wanted_err
aside C3 6 run s.pc costs im ce
stand_in "costs C4"
{ marked costs 2 C4 "nop = 1"; said C4; } >wanted_err
aside C4 6 run s.pc costs im ce
# the trace begins behind its first three bytes here
start=3
printf 'no\n4\n5\n2147483648\n' >input
{ marked "the trace" 3 T1 2147483648; said T1; } >wanted_err
aside T1 7 mean "$top/examples/p1.pc"
printf 'no\n4\n\n' >input
{ marked "the trace" 2 T2 ""; echo "  the program has 1 input"; said T2; } >wanted_err
aside T2 7 mean "$top/examples/p1.pc"
start=0
printf 'void main() { }' >none.pc
{ yes '' | head -1000000; echo x; } >input
{ marked "the trace" 1000001 T3 x; said T3; } >wanted_err
aside T3 7 mean none.pc
times 1025 ' ' >input
"$top/tools/explain" ./program 7 0 mean none.pc <input >out 2>err
[ "$(head -1 err)" = "pretc: the trace, line 1: T4" ] && tail -n 2 err | cmp -s - <(said T4) || wrong "T4: another explanation"
# where the trace is no file, its line can't be shown
{
  echo "pretc: a line of the trace is refused; the last line of the output has its rule and its number"
  echo 'give the trace as a file, with `<`, to have the line shown; docs/rules.md has the rules T1 to T4'
} >wanted_err
"$top/tools/explain" ./program 7 0 mean none.pc < <(echo x) >out 2>err
cmp -s err wanted_err || wrong "a trace from a pipe: another explanation"
for status in 3 4 5 10 11; do said "$status" >wanted_err; aside "status $status" "$status" go s.pc im; done
[ "$failed" = 0 ] && echo "explain: all as they must be"
exit "$failed"
