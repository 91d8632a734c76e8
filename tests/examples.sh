#!/usr/bin/env bash
# Each example's panel is what the program prints for it.
set -eu
cd "$(dirname "${BASH_SOURCE[0]}")/.."
seen=0
for panel in examples/*.panel; do
    bin/open_panel <"${panel%.panel}" | cmp - "$panel"
    seen=$((seen + 1))
done
echo "examples: $seen as they should be"
[ "$seen" -ge 3 ]
