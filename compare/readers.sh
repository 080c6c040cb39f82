#!/usr/bin/env bash
# readers.sh [--count N] [--seed S]: the proved reader and the second one on N made files (2,000), each answer compared whole.
set -u
cd "$(dirname "$0")/.." || exit 2
make -s -C second || exit 2
python3 compare/compare.py --first "programs/run batch" --second "target/second/second --batch" "$@"
