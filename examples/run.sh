#!/usr/bin/env bash
# Reduces each example with the built program and compares its table with the expected one:
#     examples/run.sh [FOLDER]...        all of them where none is given
# It ends with 1 where a table differs, or where the program isn't built.
set -u
top=$(cd "$(dirname "$0")/.." && pwd)
kira=$top/crates/kira/out/kira
[ -x "$kira" ] || { echo "crates/kira/out/kira isn't built: the examples were not run"; exit 1; }
[ $# -gt 0 ] || set -- "$top"/examples/*/
status=0
for folder in "$@"; do
  [ -f "$folder/expected" ] || continue
  name=$(basename "$folder")
  begin=$(date +%s%N)
  if (cd "$folder" && "$kira" jobs.yaml) | cmp -s - "$folder/expected"; then
    printf '%-22s %8.2f s\n' "$name" "$(( ($(date +%s%N) - begin) / 10000000 ))e-2"
  else
    echo "examples/$name: the table differs from the expected one"
    status=1
  fi
done
exit $status
