#!/usr/bin/env bash
# The static library, by its header: its version, sizes and rows; the examples; its check against its reading and every field against the second reader's, on the
# bench's files, made ones, whole and damaged, and the shared cases; and its questions against plain loops and its doubles against the second reader's, under the
# sanitizers, on those files' tables and on any words.
set -u
cd "$(dirname "$0")/.." || exit 2
. bench/build.sh
cases=${CASES:-$PWD/../shared/cases}
out=target/bench
passed=0
failed=0
library || exit 2
build "$out/agree" bench/agree.c second/reader.c && build "$out/example" c/example.c && build "$out/thresholds" c/thresholds.c && build "$out/curves" c/curves.c &&
    flags=$sanitized build "$out/asked" bench/asked.c && flags=$sanitized build "$out/doubled" bench/doubled.c || exit 2
python3 bench/files.py "$out/files" || exit 2
mkdir -p "$out/made"
PYTHONPATH=compare python3 - "$out/made" <<'END' || exit 2
import sys
import maker
for i, record in enumerate(maker.records(1, 500)):
    open(f"{sys.argv[1]}/{i}.ibs", "wb").write(record.data)
END
files=("$out"/files/*.ibs "$out"/made/*.ibs crates/listing/stdin)
[ ! -d "$cases" ] || files+=("$cases"/{,after-02/,after-01/,after-03/,after-06/,after-08/,after-07/}*.ibs)

# hold WHAT WANTED FOUND: one comparison
hold() {
    if [ "$2" = "$3" ]; then
        passed=$((passed + 1))
    else
        failed=$((failed + 1))
        printf 'library: %s\n  expected: %s\n  found:    %s\n' "$1" "$2" "$3"
    fi
}

# links NAME: whether a program links that calls a function by a name, as one does that was compiled against an older header
links() {
    printf 'unsigned char %s(void);\nint main(void) { return %s(); }\n' "$1" "$1" >"$out/older.c"
    build "$out/older" "$out/older.c" >"$out/older.out" 2>&1 && echo links && return
    grep -o "undefined reference to .$1'" "$out/older.out" | head -n 1
}

# sizes FILE PATTERN: the sizes that a file tells, by record
sizes() {
    sed -nE "s/$2/\\1 \\2/p" "$1" | tr '[:upper:]' '[:lower:]' | sort
}

# counted PROGRAM: what a program that counts its comparisons says of the files; one that breaks off has failed
counted() {
    local line
    line=$(launch "$out/$1" "${files[@]}" | tee >(cat >&2) | grep -E '^[a-z]+: [0-9]+ passed, [0-9]+ failed$')
    passed=$((passed + $(sed -E 's/^[a-z]+: ([0-9]+) passed.*/\1/' <<<"${line:-none: 0 passed}")))
    failed=$((failed + $(sed -E 's/.* ([0-9]+) failed$/\1/' <<<"${line:-none: 1 failed}")))
}

for name in olhovest_check olhovest_check_3 olhovest_read olhovest_find_model olhovest_model_of_pin; do
    hold "a program for an older version that calls $name" "undefined reference to \`$name'" "$(links "$name")"
done
hold 'a program that calls what has not moved' links "$(links olhovest_find_pin)"
hold 'the sizes in the header' "$(sizes crates/record_words/specs/Records.antt '^([a-z]+)_size = ([0-9]+)$')" \
    "$(sizes c/olhovest.h '^    OLHOVEST_([A-Z]+)_WORDS = ([0-9]+),?$' | grep -v ^answer)"
hold 'the rows in the header' "$(grep -x 'most_rows = [0-9]*' crates/records/specs/Bounds.antt)" \
    "most_rows = $(sed -nE 's/^    OLHOVEST_ROWS = ([0-9]+),?$/\1/p' c/olhovest.h)"
printf '#include <stdint.h>\nuint64_t other_version(void);\nuint64_t other_version(void) { return 1; }\n' >"$out/other.c"
flags=-Dolhovest_version=other_version build "$out/apart" c/example.c "$out/other.c" || exit 2
hold 'what the example says of another version' 'the library is of version 1: compile this program with its header' \
    "$(launch "$out/apart" 2>&1 <crates/listing/stdin)"
hold 'what the example prints' $'1 in1 8e-1\n2 GND' "$(launch "$out/example" <crates/listing/stdin)"
hold 'what thresholds prints' '1 8e-1 2e0' "$(launch "$out/thresholds" <crates/listing/stdin)"
hold 'how curves begins' $'in1\nground clamp -3.2999999999999998 -0.050000000000000003 NA NA' "$(launch "$out/curves" <crates/lending/stdin | head -n 2)"
counted agree
counted asked
counted doubled
echo "library: $passed passed, $failed failed"
[ "$failed" -eq 0 ]
