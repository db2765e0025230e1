#!/bin/sh
# Compares the steps of a handset's sessions, through the program session_probe, with the executable model that NAS_MODEL names, on
# random walks: commands, what a network sends, repeated, changed and of other transactions, octets that no network sends, timers, messages
# that come back, and what the handset's mobility management tells. A difference ends with status 1; where the program isn't built, no
# model is there or python3 is missing, nothing is compared, with status 0.
#
# usage: checks/sessions.sh [WALKS [SEED]]
cd "$(dirname "$0")/.." || exit 1
probe=${NAS_SESSION_PROBE:-crates/session_probe/out/session_probe}
if [ ! -x "$probe" ]; then
    echo "sessions: skipped, $probe isn't built (rt run in crates/session_probe builds it)"
    exit 0
fi
if [ -z "${NAS_MODEL:-}" ] || [ ! -f "$(dirname "$NAS_MODEL")/nas_ue.py" ]; then
    echo "sessions: skipped, NAS_MODEL names no model"
    exit 0
fi
if ! command -v python3 >/dev/null || ! python3 -c 'import cryptography' 2>/dev/null; then
    echo "sessions: skipped, python3 or its package cryptography is missing"
    exit 0
fi
exec python3 checks/sessions.py "$NAS_MODEL" "$probe" "$@"
