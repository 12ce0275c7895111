#!/bin/sh
# The stored accounts are those of the independent calculation, and were not taken from the program.
# Run from the repository's root.
set -eu
if ! command -v python3 >/dev/null 2>&1; then
    echo 'stored.sh: no python3 here, so the stored accounts are not worked out again'
    exit 0
fi
work=$(mktemp -d)
trap 'rm -rf "$work"' EXIT
python3 tests/make_cases.py --check "$work"
cmp "$work/stdin" crates/schedule_cases/stdin
cmp "$work/stdout" crates/schedule_cases/stdout
python3 tests/account.py 65536 <crates/daybook/stdin | cmp - crates/daybook/stdout
python3 tests/job_calls.py | cmp - crates/job_calls/stdout
echo 'stored.sh: the stored accounts are as worked out'
