#!/bin/sh
# Compares a handset, through the program machine_probe, with the executable model that NAS_MODEL names, step by step on random walks:
# commands, messages that a network could send, right and wrong, plain and in frames, among them new 5G-GUTIs without a registration,
# changed octets, moments with the timers that expire by then, lost connections and restarts. A difference ends with status 1; where
# the program isn't built, no model is there or python3 is missing, nothing is compared, with status 0.
#
# usage: checks/handset.sh [WALKS [SEED]]
cd "$(dirname "$0")/.." || exit 1
probe=${NAS_MACHINE_PROBE:-crates/machine_probe/out/machine_probe}
if [ ! -x "$probe" ]; then
    echo "handset: skipped, $probe isn't built (rt run in crates/machine_probe builds it)"
    exit 0
fi
if [ -z "${NAS_MODEL:-}" ] || [ ! -f "$(dirname "$NAS_MODEL")/nas_ue.py" ]; then
    echo "handset: skipped, NAS_MODEL names no model"
    exit 0
fi
if ! command -v python3 >/dev/null || ! python3 -c 'import cryptography' 2>/dev/null; then
    echo "handset: skipped, python3 or its package cryptography is missing"
    exit 0
fi
exec python3 checks/handset.py "$NAS_MODEL" "$probe" "$@"
