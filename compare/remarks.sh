#!/usr/bin/env bash
# remarks.sh [--count N] [--seed S]: both readers on N made files (1,000) and the shared cases, as they are and with other remarks.
set -u
cd "$(dirname "$0")/.." || exit 2
make -s -C second || exit 2
python3 compare/remarks.py --first "programs/run batch" --second "target/second/second --batch" "$@"
