#!/usr/bin/env bash
# The image of each example, word by word and list by list, as `tools/listing` writes it; and programs at the limits of nests: the
# image is in form, with as many slots, aborts and loops as the text has.
set -u
. "$(dirname "${BASH_SOURCE[0]}")/common/program.bash"

for source in "$top"/examples/*.pc "$top"/examples/whole/*.pc; do
  name="$(basename "$source" .pc)"
  rm -f im
  "$program" go "$source" im </dev/null >/dev/null
  "$top/tools/listing" im >out; status=$?
  expect 0 "$top/checks/listings/$name.list" "the image of $name"
done

# many COUNT TEXT: a text so many times
many() { local i; for ((i = 0; i < $1; i++)); do printf '%s' "$2"; done; }
# counts WORD: how many words of the code begin with this one
counts() { grep -c "^ *[0-9]* $1\b" list; }
# nest NAME PROGRAM WORD COUNT..: so many of these words are in the image of a program
nest() {
  local name="$1"
  printf '%s\n' "$2" >nest.pc
  shift 2
  rm -f im
  "$program" run nest.pc - im ce </dev/null >out; status=$?
  [ "$status" = 0 ] || { wrong "$name: status $status, $(head -1 out)"; return; }
  "$program" check im ce - </dev/null >out
  grep -q '^yes bound [0-9]* reached$' out || wrong "$name: $(head -1 out)"
  "$top/tools/listing" im >list
  while [ $# -gt 0 ]; do
    [ "$(counts "$1")" = "$2" ] || wrong "$name: $(counts "$1") words $1, not $2"
    shift 2
  done
}
nest "eight aborts" "int x = 0; void main() { $(many 8 'abort { ')EOT; $(many 8 '} when pre (x); ')}" abrt 8 leave 8 cend 8 eot 1
nest "eight loops" "int x = 0; void main() { $(many 8 'while (x) #2 { ')x = x + 1; $(many 8 '} ')EOT; }" loop 8 next 8 drop 8
nest "32 statements in one another" "int x = 0; void main() { $(many 31 'if (x) ')x = 1; EOT; }" beqi 31 bri 31
threads="$(for i in $(seq 1 63); do printf 'void t%d() { EOT; } ' "$i"; done)"
nest "64 threads" "$threads void main() { PAR($(seq -s ', ' -f 't%g' 1 63)); }" fork 1 end 64 eot 63
routines="int x = 0; void r1() { x = x + 1; } $(for i in $(seq 2 16); do printf 'void r%d() { r%d(); } ' "$i" $((i - 1)); done)"
nest "16 routines in one another" "$routines void main() { r16(); EOT; }" call 16 ret 16
nest "routines that nothing calls" "int x = 0; void f() { while (x) #4000000000 while (x) #4000000000 x = 1; } void g() { f(); } void main() { EOT; }" loop 2 call 1 ret 2
nest "a test over 7,400 assignments" "int x = 0; void main() { if (x) { $(many 7400 'x = 1; ')} EOT; }" swi 7400 beqi 1
[ "$failed" = 0 ] && echo "listings: all as they must be"
exit "$failed"
