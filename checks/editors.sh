#!/usr/bin/env bash
# The editors' grammars: what they say of each token of a source, and that no example has an error in its colours.
set -u
top="$(cd "$(dirname "${BASH_SOURCE[0]}")/.." && pwd)"
work="$(mktemp -d)"
trap 'rm -rf "$work"' EXIT
failed=0
wrong() { echo "FAILED: $*"; failed=1; }

for file in "$top"/editors/textmate/*.json; do
  python3 -m json.tool "$file" >/dev/null || wrong "$(basename "$file"): no JSON"
done
# the words of the grammars are the keywords of the language
keywords="int void if else while return PAR EOT abort weak when pre ReactiveInput ReactiveOutput"
for word in $keywords; do
  grep -qw "$word" "$top/editors/vim/syntax/pretc.vim" || wrong "vim: $word"
  grep -qE "[(|]$word[)|]" "$top/editors/textmate/pretc.tmLanguage.json" || wrong "textmate: $word"
done

# the scopes that the TextMate rules give, by the first rule that matches at each place
cat >"$work/scopes.py" <<'PYTHON'
import json, re, sys
patterns = json.load(open(sys.argv[1]))["patterns"]
rules = [(p["name"], re.compile(p.get("match") or p["begin"] + "[\\s\\S]*?" + p["end"], re.M)) for p in patterns]
for name in sys.argv[2:]:
    text, at = open(name, encoding="utf-8").read(), 0
    while at < len(text):
        found = [(m.start(), i, m) for i, (_, rule) in enumerate(rules) for m in [rule.search(text, at)] if m and m.end() > m.start()]
        if not found:
            break
        _, i, m = min(found)
        at = m.end()
        print(rules[i][0][: -len(".pretc")], m.group().split("\n")[0], sep="\t")
PYTHON
scopes() { python3 "$work/scopes.py" "$top/editors/textmate/pretc.tmLanguage.json" "$@"; }
cat >"$work/tokens.pc" <<'SOURCE'
/* a
b */ ReactiveInput int a = 0x1F; // EOT
void main() { while (a <= 10) #3 f(v[i], 007); weak abort EOT; when pre (a && !b); } @
SOURCE
scopes "$work/tokens.pc" | awk -F '\t' '{ print $1 }' | uniq -c | awk '{ print $2, $1 }' >"$work/scopes"
cat >"$work/wanted" <<'SCOPES'
comment.block 1
storage.modifier 1
storage.type 1
variable.other 1
keyword.operator 1
constant.numeric 1
punctuation 1
comment.line.double-slash 1
storage.type 1
entity.name.function 1
punctuation 3
keyword.control 1
punctuation 1
variable.other 1
keyword.operator 1
constant.numeric 1
punctuation 1
keyword.operator.bound 1
constant.numeric 1
entity.name.function 1
punctuation 1
variable.other 1
punctuation 1
variable.other 1
punctuation 2
invalid.illegal.number 1
punctuation 2
keyword.control.time 3
punctuation 1
keyword.control.time 2
punctuation 1
variable.other 1
keyword.operator 2
variable.other 1
punctuation 3
invalid.illegal.byte 1
SCOPES
cmp -s "$work/scopes" "$work/wanted" || { wrong "textmate: other scopes"; diff "$work/wanted" "$work/scopes"; }
scopes "$top"/examples/*.pc "$top"/examples/whole/*.pc | grep -q '^invalid' && wrong "textmate: an error in an example"

# what Vim says at each token, where there is a Vim with colours
if vim --version 2>/dev/null | grep -q '+syntax'; then
  cat >"$work/look.vim" <<'VIM'
let out = []
let places = {1: [1], 2: [1, 6, 20, 24, 26, 28, 34], 3: [6, 15, 24, 31, 34, 42, 48, 53, 59, 64, 69, 76, 86]}
for line in [1, 2, 3]
  for column in places[line]
    call add(out, synIDattr(synID(line, column, 1), "name"))
  endfor
endfor
call writefile(out, $LOOK)
VIM
  LOOK="$work/names" vim -e -s -u NONE -c "set nocompatible" -c "set runtimepath^=$top/editors/vim" -c "filetype on" -c "syntax on" \
    -c "edit $work/tokens.pc" -c "source $work/look.vim" -c "qall!" </dev/null >/dev/null 2>&1
  cat >"$work/wanted" <<'NAMES'
Comment
Comment
Interface
Type

Operator
Number
Comment
Function
Repeat
Operator
Bound
Function
BadNumber
Time
Time
Time
Time
Time
Operator
BadByte
NAMES
  sed 's/^pretc//' "$work/names" >"$work/got" 2>/dev/null
  cmp -s "$work/wanted" "$work/got" || { wrong "vim: other names"; diff "$work/wanted" "$work/got"; }
fi
[ "$failed" = 0 ] && echo "editors: all as they must be"
exit "$failed"
