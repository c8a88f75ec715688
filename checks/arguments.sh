#!/usr/bin/env bash
# The built program on names of files that aren't UTF-8: each is a load that failed, and no usage fault.
set -u
. "$(dirname "${BASH_SOURCE[0]}")/common/program.bash"

printf 'read fault\n' >wanted
for words in "go im" "print" "rules"; do
  set -- $words
  "$program" "$1" $'\xff' ${2:+"$2"} </dev/null >out; status=$?
  expect 3 wanted "$words"
done
printf 'usage\n' >wanted
"$program" $'\xff' a b </dev/null >out; status=$?
expect 2 wanted "an unknown command"
[ "$failed" = 0 ] && echo "arguments: all as they must be"
exit "$failed"
