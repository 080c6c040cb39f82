#!/usr/bin/env bash
# Holds crates.txt to what the crates use, and `use` lines to what their files use.
exec python3 "$(dirname "$0")/rooms.py"
