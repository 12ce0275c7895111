#!/bin/sh
# Compares daybook's library with the independent calculation on random schedules, valid and damaged, on papers of many
# sizes. Run from the repository's root: tests/compare.sh [SEED [COUNT]]
set -eu
seed=${1:-1}
count=${2:-20000}
work=$(mktemp -d)
trap 'rm -rf "$work"' EXIT
(cd crates/schedule_cases && rt run) >"$work/log" 2>&1 || { cat "$work/log"; exit 1; }
python3 tests/account.py --random "$seed" "$count" >"$work/stdin"
python3 tests/account.py --cases "$work/stdin" >"$work/expected"
crates/schedule_cases/out/schedule_cases <"$work/stdin" >"$work/printed"
cmp "$work/expected" "$work/printed"
echo "compare.sh: seed $seed, $count schedules, no difference"
