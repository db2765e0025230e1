#!/bin/sh
# Compares the calls of milenage, through the program nas_probe, with osmo-auc-gen (Debian's package libosmocore-utils) on random
# subscribers and challenges: the vectors, and that it reads the sequence number out of the AUTS of an answer. A difference ends
# with status 1; where the program isn't built or a tool is missing, nothing is compared, with status 0.
#
# usage: checks/milenage.sh [CHALLENGES [SEED]]
cd "$(dirname "$0")/.." || exit 1
probe=${NAS_PROBE:-crates/nas_probe/out/nas_probe}
if [ ! -x "$probe" ]; then
    echo "milenage: skipped, $probe isn't built (rt run in crates/nas_probe builds it)"
    exit 0
fi
for tool in python3 osmo-auc-gen; do
    if ! command -v "$tool" >/dev/null; then
        echo "milenage: skipped, $tool is missing"
        exit 0
    fi
done
exec python3 checks/milenage.py "$probe" "$@"
