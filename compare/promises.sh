#!/usr/bin/env bash
# Holds every public function to the forms of promise that leave one result, or to its place among docs/CONTRACTS.md's exceptions; and the check itself
# to promises that are made up, good and bad.
exec python3 "$(dirname "$0")/promises.py"
