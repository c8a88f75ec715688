# Sourced by the checks that run the built program: `$program` in an empty folder of its own, and how they fail.
top="$(cd "$(dirname "${BASH_SOURCE[0]}")/../.." && pwd)"
program="$top/crates/pretc/out/pretc"
# the front door builds the program where a gate run has left none
[ -x "$program" ] || "$top/pretc" >/dev/null </dev/null
if [ ! -x "$program" ]; then
  echo "the program isn't built: $program"
  exit 1
fi
work="$(mktemp -d)"
trap 'rm -rf "$work"' EXIT
cd "$work" || exit 1
failed=0
wrong() { echo "FAILED: $*"; failed=1; }

# expect STATUS OUTPUT-FILE NAME: the last run's status and whole output
expect() {
  [ "$status" = "$1" ] || wrong "$3: status $status, not $1"
  cmp -s out "$2" || wrong "$3: another output"
}
