#!/usr/bin/env bash
# The front door where the program has to be built: what it says, and what it leaves alone. A stand-in for the kit builds.
set -u
top="$(cd "$(dirname "${BASH_SOURCE[0]}")/.." && pwd)"
work="$(mktemp -d)"
trap 'rm -rf "$work"' EXIT
cd "$work" || exit 1
failed=0
wrong() { echo "FAILED: $*"; failed=1; }

mkdir -p kit repo/crates/low/src repo/crates/low/specs repo/crates/pretc/src repo/crates/pretc/specs repo/tools repo/docs
cp "$top/pretc" repo/
cp "$top/tools/explain" repo/tools/
cp "$top/docs/rules.md" repo/docs/
printf '# crates\nlow:\npretc: low\n' >repo/crates.txt
touch repo/crates/low/src/lib.rt
cat >kit/rt <<'RT'
#!/bin/sh
# `rt all check` proves the crates, `rt run -- rules` builds the program and runs it
[ ! -e "$FAILS" ] || { echo "== low status 1 FAILED: 1 not proved"; exit 1; }
if [ "$1" = all ]; then
  printf 'only=0 proved=0\n== low\nfn low::f: proved\nlogic=proved\n== pretc\nlogic=proved\n== summary\n'
else
  mkdir -p out
  printf '#!/bin/sh\n[ $# != 1 ] || { echo usage; exit 2; }\necho "ran $*"\ncat\nexit 9\n' >out/pretc
  chmod +x out/pretc
  out/pretc rules
fi
RT
chmod +x kit/rt
# front NAME STATUS: status, output and what is said, against the files wanted and wanted_err
front() {
  echo input | FAILS="$work/fails" PATH="$work/kit:$PATH" repo/pretc a b >out 2>err; status=$?
  sed -i 's/, [0-9]* at a time,/, N at a time,/; s/in [0-9]* seconds/in N seconds/' err
  [ "$status" = "$2" ] || wrong "$1: status $status"
  cmp -s out wanted || wrong "$1: another output"
  cmp -s err wanted_err || { wrong "$1: another word"; diff wanted_err err; }
}
log="$work/repo/crates/pretc/out/build.log"
printf 'ran a b\ninput\n' >wanted
cat >wanted_err <<TEXT
pretc: proving 2 crates, N at a time, and building the program; log: $log
pretc: 1 of 2 crates proved: low
pretc: 2 of 2 crates proved: pretc
pretc: linking
pretc: built in N seconds
TEXT
front "the first build" 9
: >wanted_err; front "no build" 9
sleep 1; touch repo/crates/low/src/lib.rt fails
: >wanted
cat >wanted_err <<TEXT
pretc: proving 2 crates, N at a time, and building the program; log: $log
pretc: a crate isn't proved, see $log
TEXT
front "a proof that fails" 70
rm fails repo/crates/pretc/out/pretc
echo "pretc: the program isn't built, and the kit that builds it (rt) isn't in the path" >wanted_err
mkdir bare; for word in bash dirname cat sed find grep; do ln -s "$(command -v "$word")" bare/; done
PATH="$work/bare" repo/pretc a b >out 2>err </dev/null; status=$?
[ "$status" = 70 ] && [ ! -s out ] && cmp -s err wanted_err || { wrong "no kit: status $status"; cat err; }
[ "$failed" = 0 ] && echo "door: all as they must be"
exit "$failed"
