#!/usr/bin/env bash
# Document 01's listing: its file and the three variants, files of many rows, its examples of numbers, each as the package's resistance in that file, and lines at
# fault with their columns.
set -u
cd "$(dirname "$0")/.." || exit 2
file=crates/listing/stdin
pins=$'P 1 DOOR in1 8e-1 2e0\nP 2 VSS GND NA NA'
passed=0
failed=0

# expect WHAT WANTED PROGRAM: holds what a program writes for standard input to what document 01 says
expect() {
    local said
    said=$(programs/run "$3")
    if [ "$said" = "$2" ]; then
        passed=$((passed + 1))
    else
        failed=$((failed + 1))
        printf 'listing: %s gives\n%s\nbut should give\n%s\n' "$1" "$said" "$2"
    fi
}

# waveforms COUNT ROWS: the file with so many waveforms of so many rows each
waveforms() {
    awk -v count="$1" -v rows="$2" '
        $0 == "[End]" {
            while (count-- > 0) {
                print "[Rising Waveform]\nR_fixture = 50\nV_fixture = 0"
                for (row = 0; row < rows; row++) print row, "0 0 0"
            }
        }
        1' "$file"
}

expect "the file" $'OK 1 2 0 1 0\n'"$pins" listing <"$file"
expect "line 14 as an output" "NO 9 13 0" listing < <(sed '14s/Input/Output/' "$file")
expect "line 12 with GNDX" "NO 15 12 0" listing < <(sed '12s/GND/GNDX/' "$file")
expect "line 11 with GND" "NO 16 13 0" listing < <(sed '11s/in1/GND/' "$file")
expect "an empty file" "NO 19 1 0" listing </dev/null
expect "two waveforms of 501 rows" $'OK 1 2 0 1 1002\n'"$pins" listing < <(waveforms 2 501)
expect "six waveforms of 1,000 rows" $'OK 1 2 0 1 6000\n'"$pins" listing < <(waveforms 6 1000)
expect "a waveform of 1,001 rows" "NO 13 17 0" listing < <(waveforms 1 1001)

# a number of the paper's, and how it is written, or its fault
while read -r word wanted; do
    fault=$wanted
    case $wanted in
    *e*) wanted=$(programs/run dump <"$file" | sed "s/^R_PKG .*/R_PKG $wanted NA NA/") ;;
    *) wanted="NO $fault 7 7" ;;
    esac
    expect "$word" "$wanted" dump < <(sed "7s/250m/$word/" "$file")
done <<'NUMBERS'
18.0pF 18e-12
250.0m 25e-2
-0.0 0e0
5F 5e0
5f 5e-15
1.2e3m 12e-1
1e 1e0
1e+ 11
1234567890123450 123456789012345e1
1234567890123456 12
1e24 1e24
1e25 12
1e-40 1e-40
1e-41 12
0e99 0e0
NUMBERS

# a line of the file, what stands there instead (`·` is a blank, `\n` a line end, `\t` a tab), and what is told of it: number, line, column
while read -r place number line column text; do
    text=${text//·/ }
    expect "$text" "NO $number $line $column" listing < <(awk -v place="$place" -v text="$text" 'NR == place { print text; next } 1' "$file")
done <<'COLUMNS'
11 10 11 7 1 DOOR
11 10 11 12 1 DOOR in1 x y
11 10 11 1 123456789 DOOR
11 10 11 8 1 DOOR NA x
10 10 11 14 [Pin] signal_name model_name R_pin L_pin C_pin\n1 a out1 1 NA   | 2p
10 12 11 12 [Pin] signal_name model_name R_pin L_pin C_pin\n1 a out1 1 1e99 x
10 10 10 35 [Pin] signal_name model_name R_pin
10 10 10 30 [Pin] signal_name model_name x
7 10 7 11 R_pkg 1  2   | 3
7 10 7 14 R_pkg 1 2 3  4 5
7 10 7 10 R_pkg x 1
7 10 7 6 R_pkg=1 NA NA
7 11 7 7 R_pkg =1 NA NA
7 10 7 14 R_pkg = 1 NA NA
7 10 7 10 ·\tR_pkg 1·
15 10 15 5 Vinl
15 10 15 6 Vinl 1
15 10 15 6 Vinl 1 = 2
15 10 15 7 Vinl =
15 11 15 6 Vinl=x
15 11 15 6 Vinl==1
15 11 15 8 Vinl = 1=
15 10 15 10 Vinl = = 1
15 10 15 10 Vinl = 1 = 2
14 10 14 11 Model_type=Input
14 10 14 12 Model_type = Input
17 11 18 14 [Ramp]\ndV/dt_r 1/1n 1/x NA
17 10 18 16 [Ramp]\ndV/dt_r 1 / 1n NA NA
17 10 18 6 [Pulldown]\n0 1 2
17 10 18 2 [Pulldown]\nx
17 10 18 4 [Rising Waveform]\n= 1
4 10 4 12 [Component]  | none
13 10 13 13 [Model] in1 x
13 10 13 9 [Model] NA x
16 11 16 17 [Voltage Range] NA NA NA
17 10 17 7 [End] x
4 10 4 17 [Comment Char]··
4 10 4 23 [Comment Char] !_char | x
4 10 4 16 [Comment Char] !_char!x
COLUMNS

echo "listing: $passed passed, $failed failed"
[ "$failed" -eq 0 ]
