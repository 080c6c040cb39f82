#!/usr/bin/env bash
# Holds every wrong answer to its crate, those that the gate tries and those in tried/, and reads why the prover refused the gate's.
exec python3 "$(dirname "$0")/edits.py"
