#!/bin/sh
# Compares a network of three subscribers, through the program machine_probe, with the executable model that NAS_MODEL names, step by
# step on random walks: what the model's handsets send it, lost, repeated, late, changed and on other links, octets that others send,
# plain and in frames, commands, moments with the timers that expire by then, and lost links. A difference ends with status 1; where
# the program isn't built, no model is there or python3 is missing, nothing is compared, with status 0.
#
# usage: checks/network.sh [WALKS [SEED]]
cd "$(dirname "$0")/.." || exit 1
probe=${NAS_MACHINE_PROBE:-crates/machine_probe/out/machine_probe}
if [ ! -x "$probe" ]; then
    echo "network: skipped, $probe isn't built (rt run in crates/machine_probe builds it)"
    exit 0
fi
if [ -z "${NAS_MODEL:-}" ] || [ ! -f "$(dirname "$NAS_MODEL")/nas_net.py" ]; then
    echo "network: skipped, NAS_MODEL names no model"
    exit 0
fi
if ! command -v python3 >/dev/null || ! python3 -c 'import cryptography' 2>/dev/null; then
    echo "network: skipped, python3 or its package cryptography is missing"
    exit 0
fi
exec python3 checks/network.py "$NAS_MODEL" "$probe" "$@"
