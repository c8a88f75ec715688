#!/usr/bin/env bash
# The repository stands alone: it cites no document outside it, and its handles stay none.
set -u
cd "$(dirname "${BASH_SOURCE[0]}")/.." || exit 1
failed=0
[ "$(cat HANDLES)" = "Handles allowed: none." ] || { echo "FAILED: HANDLES"; failed=1; }
found="$(git grep -nE '\b(D(1[0-9]|2[0-5]|[1-9])|W(1[0-6]|[1-9])|T[1-5]\.[1-9])\b|\b[Dd]ocument 0[1-5]\b|\b0[1-4] section|\bpapers?\b' -- . ':!checks/words.sh' ':!*.pc' ':!*.trace' ':!*.report' 2>/dev/null | head -20)"
if [ -n "$found" ]; then
  echo "FAILED: words that cite what isn't here"
  printf '%s\n' "$found"
  failed=1
fi
[ "$failed" = 0 ] && echo "words: none that cite what isn't here"
exit "$failed"
