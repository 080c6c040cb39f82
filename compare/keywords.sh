#!/usr/bin/env bash
# The keywords of the hierarchy and names near them, in any spelling and up to a line's length: 5, 6, 21 or none of them, alike by both readers.
set -u
cd "$(dirname "$0")/.." || exit 2
make -s -C second || exit 2
exec python3 compare/keywords.py --first "programs/run batch" --second "target/second/second --batch"
