#!/usr/bin/env bash
# All tests: the reference calculation, the proofs with their edits that must fail, the programs and their tests, and
# the built programs against the reference. Ends with rt's own count; fails where anything fails.
set -euo pipefail
cd "$(dirname "$0")"
export PYTHONDONTWRITEBYTECODE=1

python3 -m unittest discover -q -s reference

# the stored expectations are what the reference prints
cmp storms/cloudburst.txt crates/hydrograph/stdin
python3 reference/hydrograph.py < storms/cloudburst.txt | cmp - crates/hydrograph/stdout
python3 reference/district_example.py | cmp - crates/district_example/stdout
python3 reference/replay.py --check

# rt's last line is held back until the programs have been compared
log=$(mktemp)
trap 'rm -f "$log"' EXIT
rt ci | tee "$log" | sed '$d' || { tail -n 1 "$log"; exit 1; }
if grep -E '^rt: ok.*, [1-9][0-9]* bad' "$log"; then
    echo 'test: an edit that must fail cannot be tried'
    exit 1
fi

bash refused_by_types.sh
for program in hydrograph ram; do
    (cd "crates/$program" && rt run < stdin | cmp - stdout)
done
python3 reference/compare_hydrograph.py crates/hydrograph/out/hydrograph --vast
python3 reference/compare_sheets.py crates/ram/out/ram

tail -n 1 "$log"
