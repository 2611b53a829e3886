#!/bin/bash
# The gate: what can be checked in a second, then every proof with `rt ci`, then the tests from outside
# over the programs that it built. The last line is that of `rt ci`, 'N passed, 0 failed', and is there only if all
# else passed too.
set -euo pipefail
cd "$(dirname "$0")/.."

log=$(mktemp)
trap 'rm -f "$log"' EXIT
TIMEFORMAT='rt ci took %0U s of processor time, in %0R s'

python3 tests/check_edits.py
python3 tests/test_documents.py
python3 tests/test_sources.py
python3 tests/test_surface.py
python3 tests/test_tools.py

time rt ci | tee "$log"
verdict=$(tail -n 1 "$log")
if [[ ! $verdict =~ ^[0-9]+\ passed,\ 0\ failed$ ]]; then
    echo "the gate: the last line of 'rt ci' tells of no success" >&2
    exit 1
fi

python3 tests/run.py
echo "$verdict"
