#!/usr/bin/env bash
# The stored edges are what their script writes.
set -eu
cd "$(dirname "${BASH_SOURCE[0]}")/.."
made=$(mktemp -d)
trap 'rm -rf "$made"' EXIT
bash vectors/edges.sh "$made"
cmp "$made/edges.cases" vectors/edges.cases
cmp "$made/edges.expected" vectors/edges.expected
