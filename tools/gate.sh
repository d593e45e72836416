#!/usr/bin/env bash
# rt's gate, then the Rust tests. rt passes where a must-fail edit is bad, though such an edit shows nothing: here it fails.
# The last line is rt's, said again.
set -euo pipefail
cd "$(dirname "$0")/.."
said=$(mktemp)
trap 'rm -f "$said"' EXIT
rt ci | tee "$said"
if grep -Eq '^rt: ok.*, [1-9][0-9]* bad' "$said"; then
    echo "A must-fail edit is bad: rt names it above." >&2
    exit 1
fi
make --no-print-directory rust
tail -n 1 "$said"
