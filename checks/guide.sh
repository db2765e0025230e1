#!/usr/bin/env bash
# Tries the commands with their answers that docs/ shows.
cd "$(dirname "$0")/.." || exit 1
program=crates/nas_cli/out/nas_cli
if ! command -v python3 >/dev/null; then
    echo "skipped: no Python"
    exit 0
fi
if [ ! -x "$program" ]; then
    echo "skipped: $program is not built"
    exit 0
fi
exec python3 checks/guide.py "$program" docs/*.md
