#!/usr/bin/env bash
# What explain asks of keywords that nobody has: the nearest keyword of the hierarchy, found by a plain edit distance.
set -u
cd "$(dirname "$0")/.." || exit 2
exec python3 compare/meant.py "programs/run explain file"
