#!/usr/bin/env bash
# Compares the program with the executable model that NAS_MODEL names, on random configurations and scripts.
cd "$(dirname "$0")/.." || exit 1
program=crates/nas_cli/out/nas_cli
if [ -z "${NAS_MODEL:-}" ] || [ ! -f "$NAS_MODEL" ]; then
    echo "skipped: NAS_MODEL names no model"
    exit 0
fi
if ! command -v python3 >/dev/null || ! python3 -c 'import tomllib' 2>/dev/null; then
    echo "skipped: no Python 3.11"
    exit 0
fi
if [ ! -x "$program" ]; then
    echo "skipped: $program is not built"
    exit 0
fi
exec python3 checks/model.py "$NAS_MODEL" "$program" "${1:-400}" "${2:-1}"
