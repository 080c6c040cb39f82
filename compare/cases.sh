#!/usr/bin/env bash
# The proved reader on the shared cases, each dump compared whole; nothing to do where that folder is not there.
set -u
cd "$(dirname "$0")/.." || exit 2
exec python3 compare/cases.py cases "programs/run dump" --each
