#!/usr/bin/env bash
# The worked examples of docs/language.md are the programs of examples/whole that it names, with their traces and outputs.
set -u
top="$(cd "$(dirname "${BASH_SOURCE[0]}")/.." && pwd)"
page="$top/docs/language.md"
section="$(mktemp)"
trap 'rm -f "$section"' EXIT
failed=0
wrong() { echo "FAILED: $*"; failed=1; }
for name in button order stops average; do
  program="$top/examples/whole/$name.pc"
  # the section that names the program: its first block of code, and the first and last cells of its table
  awk -v name="$name.pc" '/^## / { if (text ~ "This is .*" name) printf "%s", text; text = "" } { text = text $0 "\n" }' "$page" >"$section"
  awk '/^```/ { n++; next } n == 1' "$section" | cmp -s - "$program" || wrong "$name: another program"
  cells() { awk -F ' *[|] *' -v from_the_end="$1" '/^[|] `/ { print from_the_end ? $(NF - 1) : $2 }' "$section" | tr -d '`'; }
  cells 0 | cmp -s - "${program%.pc}.trace" || wrong "$name: another trace"
  cells 1 | cmp -s - <(sed -n 's/^tick [0-9]*: //p' "${program%.pc}.meaning") || wrong "$name: other outputs"
done
# each rule has a row of its own in the table of rules
for rule in Z{1..9} L{1..3} S1 N{1..8} E1 E2 T{1..4} C{1..4} I{1..10} K{1..7} A{1..7}; do
  [ "$(grep -c "^| $rule |" "$top/docs/rules.md")" = 1 ] || wrong "docs/rules.md: $rule hasn't one row"
done
# every folder and file of the crates that a page names is there
while read -r path; do
  [ -e "$top/$path" ] || wrong "the pages name $path, which isn't there"
done < <(cd "$top" && grep -ohE '`crates/[A-Za-z0-9_/.-]+`' README.md docs/*.md | tr -d '`' | sort -u)
# and so is every crate, but in pages that speak of what was or of what is to come
while read -r name; do
  [ -d "$top/crates/$name" ] || wrong "the pages name the crate $name, which isn't there"
done < <(cd "$top" && grep -ohE '\b(pt|pc|mb|tk)_[a-z_]+\b' README.md $(ls docs/*.md | grep -vE 'DECISIONS|architecture') | sort -u)
# every link between the pages goes somewhere
while IFS=: read -r file link; do
  [ -e "$(dirname "$top/$file")/${link%%#*}" ] || wrong "$file: no $link"
done < <(cd "$top" && grep -oE '\]\([^)#:]+[)#]' README.md docs/*.md examples/README.md | sed 's/\](/ /; s/[)#]$//; s/: /:/')
[ "$failed" = 0 ] && echo "pages: all as they must be"
exit "$failed"
