#!/usr/bin/env bash
# What `ask` says where nothing it knows is asked: which questions there are, on standard error, and nothing else.
set -u
cd "$(dirname "$0")/.." || exit 2
passed=0
failed=0

# unasked WORD..: the words are no question
unasked() {
    local printed told
    printed=$(programs/run ask "$@" <crates/listing/stdin 2>/dev/null)
    told=$(programs/run ask "$@" <crates/listing/stdin 2>&1 >/dev/null)
    if [ -z "$printed" ] && [[ $told == 'ask: '*'the question is one of: '*doubles* ]]; then
        passed=$((passed + 1))
    else
        failed=$((failed + 1))
        printf 'ask: of the question "%s"\n  printed: %s\n  told:    %s\n' "$*" "$printed" "$told"
    fi
}

unasked
unasked ''
unasked double
unasked doubles2
unasked Doubles
unasked "$(printf 'x%.0s' {1..100000})"
unasked other doubles
echo "ask: $passed passed, $failed failed"
[ "$failed" -eq 0 ]
