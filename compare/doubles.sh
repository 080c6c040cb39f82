#!/usr/bin/env bash
# doubles.sh [--count N] [--seed S]: the cells of a file as doubles, by the proved program and by the second reader under the sanitizers, on the cases of
# document 02's section 7, on N made files (150) and on some of the other shared cases, each answer compared whole.
set -u
cd "$(dirname "$0")/.." || exit 2
make -s -C second checked || exit 2
python3 compare/doubles.py --first "programs/run ask doubles" --second target/second/checked/second "$@"
