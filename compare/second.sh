#!/usr/bin/env bash
# The second reader on the shared cases, under the sanitizers; nothing to do where that folder is not there.
set -u
cd "$(dirname "$0")/.." || exit 2
make -s -C second checked || exit 2
exec python3 compare/cases.py second "target/second/checked/second --batch"
