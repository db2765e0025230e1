#!/usr/bin/env bash
# Runs the program on each run that lies in the folder rows beside the folder of the executable model that NAS_MODEL names, and compares
# the transcripts. Runs with sessions are left out. A difference ends with status 1; where the program isn't built or no runs are there,
# nothing is compared, with status 0.
#
# usage: checks/rows.sh
cd "$(dirname "$0")/.." || exit 1
program=${NAS_PROGRAM:-crates/nas_cli/out/nas_cli}
if [ ! -x "$program" ]; then
    echo "rows: skipped, $program isn't built (rt run in crates/nas_cli builds it)"
    exit 0
fi
rows=$(dirname "${NAS_MODEL:-none/none}")/../rows
if [ ! -d "$rows" ]; then
    echo "rows: skipped, NAS_MODEL names no model with runs beside it"
    exit 0
fi
compared=0
left_out=0
wrong=0
for script in "$rows"/*.script; do
    run=${script%.script}
    if grep -qE '^(establish|modify|release|net-modify|net-release) ' "$script"; then
        left_out=$((left_out + 1))
        continue
    fi
    if "$program" run "$run.toml" "$script" | cmp -s - "$run.transcript"; then
        compared=$((compared + 1))
    else
        echo "rows: $(basename "$run") differs"
        wrong=$((wrong + 1))
    fi
done
echo "rows: $compared runs agree, $wrong differ, $left_out with sessions are left out"
[ "$wrong" -eq 0 ]
