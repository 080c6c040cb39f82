#!/usr/bin/env bash
# What explain tells of document 01's example and of a file for every fault, held to the verdict of dump, the file's own line, the listing and the values of dump;
# and of faults that tell a column, held to texts written by hand.
# shellcheck disable=SC2016,SC2094
set -u
cd "$(dirname "$0")/.." || exit 2
example=crates/explain/stdin
folder=$(mktemp -d)
trap 'rm -rf "$folder"' EXIT
passed=0
failed=0
met=' '

# hold WHAT EXPECTED FOUND: counts one comparison
hold() {
    if [ "$2" = "$3" ]; then
        passed=$((passed + 1))
    else
        failed=$((failed + 1))
        printf 'explain: %s\n  expected: %s\n  found:    %s\n' "$1" "$2" "$3"
    fi
}

# source_line FILE LINE: the line as explain shows it
source_line() {
    local line
    line=$(sed -n "$2p" "$1" | sed 's/\r$//' | LC_ALL=C tr -c '\t\n -~' '?')
    [ ${#line} -le 120 ] || line=${line:0:120}..
    echo "> $line"
}

# mark FILE LINE COLUMN: what stands under the line: blanks and tabs up to the column, and the mark
mark() {
    local line
    line=$(sed -n "$2p" "$1")
    line=${line:0:$3-1}
    echo "  ${line//[^$'\t']/ }^"
}

# refused FILE NUMBER LINE COLUMN: the first line's form, the source line, the mark under it for 10, 11 and 12 alone, and that a hint follows
refused() {
    local place=:$3:$4 lines=3 told
    place=${place%:0}
    place=${place%:0}
    [ "$3" -gt 0 ] && [ "$3" -le "$(grep -c '' "$1")" ] || lines=2
    [[ $2 != 1[012] ]] || lines=4
    told=$(programs/run explain "$1" <"$1")
    met+="$2 "
    hold "first line of $1" "$1$place: fault $2: " "$(sed -n '1s/\(: fault [0-9]*: \)[A-Z].*\.$/\1/p' <<<"$told")"
    hold "how many lines $1 gives" "$lines" "$(grep -c . <<<"$told")"
    [ "$lines" -eq 2 ] || hold "source line of $1" "$(source_line "$1" "$3")" "$(sed -n 2p <<<"$told")"
    [ "$lines" -ne 4 ] || hold "mark of $1" "$(mark "$1" "$3" "$4")" "$(sed -n 3p <<<"$told")"
}

# told WHAT SED-SCRIPT: all that is told of the example so edited, held to the text on standard input
told() {
    hold "$1" "$(cat)" "$(sed "$2" "$example" | programs/run explain lk.ibs)"
}

# capacitances FILE: of each model its name and its five typ values in picofarads, from what dump tells in farads; a power of ten is added to
# and nothing multiplied, so that equal decimals stay equal
capacitances() {
    programs/run dump <"$1" | awk '
        function picofarads(cell, parts) { return split(cell, parts, "e") < 2 ? cell : sprintf("%.17g", parts[1] "e" parts[2] + 12) }
        $1 == "MODEL" { printf "%s", $3 }
        /^C_COMP/ { printf " %s", picofarads($2) }
        $1 == "C_COMP_GND_CLAMP" { print "" }'
}

# accepted FILE: the first line, each pin as the listing has it, and each model's capacitances as dump has them
accepted() {
    local told title='die capacitance, typ (pF)'
    told=$(programs/run explain "$1" <"$1")
    hold "first line of $1" "$1: accepted" "$(head -n 1 <<<"$told")"
    hold "pins of $1" "$(programs/run listing <"$1" | awk '$1 == "P" { print $2, $3, $4, ($5 == "NA" ? "-" : $5 + 0), ($6 == "NA" ? "-" : $6 + 0) }')" \
        "$(sed "/^$title\$/,\$d" <<<"$told" | awk '/^  / && $NF != "(V)" { print $1, $2, $3, ($5 == "-" ? "-" : $5 + 0), ($6 == "-" ? "-" : $6 + 0) }')"
    hold "capacitances of $1" "$(capacitances "$1")" \
        "$(sed "1,/^$title\$/d" <<<"$told" | awk 'NR > 1 { for (i = 2; i <= NF; i++) $i = $i == "-" ? "-" : sprintf("%.17g", $i); print }')"
}

# compare FILE: by the verdict of dump
compare() {
    local verdict number line column
    read -r verdict number line column < <(programs/run dump <"$1" | head -n 1)
    case $verdict in
        OK) accepted "$1" ;;
        NO) refused "$1" "$number" "$line" "$column" ;;
        *) hold "verdict of $1" 'OK or NO' "$verdict" ;;
    esac
}

# damage NAME SED-SCRIPT: a file made from the example
damage() {
    sed "$2" "$example" >"$folder/$1.ibs"
}

waveform='[Rising Waveform]\nR_fixture = 50\nV_fixture = 0'
{ cat "$example" && printf '|%.0s\n' {1..40000}; } >"$folder/1.ibs"
damage 2 's/DOOR/D\x01\xffOR/'
damage 3 "5s/\$/ | $(printf '%0130d' 0)/"
printf %s "$(<"$example")" >"$folder/4.ibs"
damage 5 's/Package/Package_/'
damage 6 's/Package/Package Model/'
damage 7 '$a after the end'
damage 8 5p
damage 9 /R_pkg/d
damage 10 s/5.0/5.1/
damage 11 s/250m/x/
damage 12 s/250m/1e99/
damage 13 '/End/i [Pulldown]\n0 1 1 1'
damage 14 's/2 VSS/1 VSS/'
damage 15 s/GND/GNDX/
damage 16 's/DOOR in1/DOOR GND/'
damage 17 "/2 VSS/a $(printf 'p%s S NC\\n' {1..512})"
damage 19 /End/d
damage 20 '/Model_type/a Vinl = 2'
damage 21 's/Package/Packages/'
damage structures '/C_comp/a C_comp_pullup 2pF NA NA\nC_comp_pulldown -1.5pF NA NA\nC_comp_power_clamp 0 NA NA\nC_comp_gnd_clamp 0.25fF NA NA'
damage clamp '/C_comp/i C_comp_power_clamp 1.25nF 2 -3'
damage extremes 's/in1/the_widest_of_all_names/; s/C_comp 5pF/C_comp -123456789012345e24/; /C_comp/i C_comp_gnd_clamp 1e-40 NA NA'
damage bare 's/DOOR in1/DOOR NC/; /\[Model]/,/Voltage/d'
damage selector 's/DOOR in1/DOOR choice/; /\[Model]/i [Model Selector] choice\nin1 the only one'
damage carriage 's/$/\r/; s/DOOR/GNDX/'
damage middle 's/DOOR/DO\rOR/'
sed 's/./&\x00/g' "$example" >"$folder/utf16.ibs"
: >"$folder/empty.ibs"

# more rows than a waveform may have
rows=$(printf '\\n%s 1 1 1' {1..501})
many=$folder/many.ibs
damage many "/End/i $waveform$rows\\n${waveform/Rising/Falling}$rows"
hold "rows of $many" 'table rows: 1002' "$(programs/run explain "$many" <"$many" | grep -o 'table rows: [0-9]*')"

# ---- faults that tell a column: what is told of each, written by hand

told 'a cell too many' '7s/$/ 4/' <<'END'
lk.ibs:7:18: fault 10: A word, a name or the count of words is wrong.
> R_pkg 250m NA NA 4
                   ^
`4` is one word too many, or misspelled: those before it are enough, and `=` counts as one.
END
told 'a cell too many, and one more' '7s/$/  4 5/' <<'END'
lk.ibs:7:19: fault 10: A word, a name or the count of words is wrong.
> R_pkg 250m NA NA  4 5
                    ^
`4` is one word too many, or misspelled: those before it are enough, and `=` counts as one.
END
told 'a cell too many, by an equals sign' '7s/R_pkg/R_pkg =/' <<'END'
lk.ibs:7:17: fault 10: A word, a name or the count of words is wrong.
> R_pkg = 250m NA NA
                  ^
`NA` is one word too many, or misspelled: those before it are enough, and `=` counts as one.
END
told 'a word behind a short pin row' '11s/$/ x y/' <<'END'
lk.ibs:11:12: fault 10: A word, a name or the count of words is wrong.
> 1 DOOR in1 x y
             ^
`x` is one word too many, or misspelled: those before it are enough, and `=` counts as one.
END
told 'a heading that goes on wrongly' '10s/$/ R_pn L_pin C_pin/' <<'END'
lk.ibs:10:30: fault 10: A word, a name or the count of words is wrong.
> [Pin] signal_name model_name R_pn L_pin C_pin
                               ^
`R_pn` is one word too many, or misspelled: those before it are enough, and `=` counts as one.
END
told 'a word behind [End]' '17s/$/ x/' <<'END'
lk.ibs:17:7: fault 10: A word, a name or the count of words is wrong.
> [End] x
        ^
`x` is one word too many, or misspelled: those before it are enough, and `=` counts as one.
END
told 'a missing cell, behind tabs and before a comment' '7s/.*/\tR_pkg\t250m  NA   | NA/' <<'END'
lk.ibs:7:16: fault 10: A word, a name or the count of words is wrong.
> 	R_pkg	250m  NA   | NA
  	     	        ^
A word is missing behind what stands here; a comment does not count.
END
told 'a missing pin word' '11s/ in1//' <<'END'
lk.ibs:11:7: fault 10: A word, a name or the count of words is wrong.
> 1 DOOR
        ^
A word is missing behind what stands here; a comment does not count.
END
told 'a missing argument' '4s/LK1/ | none/' <<'END'
lk.ibs:4:12: fault 10: A word, a name or the count of words is wrong.
> [Component]  | none
             ^
A word is missing behind what stands here; a comment does not count.
END
told 'a missing number behind an equals sign' '14a Vinl =' <<'END'
lk.ibs:15:7: fault 10: A word, a name or the count of words is wrong.
> Vinl =
        ^
A word is missing behind what stands here; a comment does not count.
END
told 'a missing word, by lines that end in CR LF' 's/$/\r/; 11s/ in1//' <<'END'
lk.ibs:11:7: fault 10: A word, a name or the count of words is wrong.
> 1 DOOR
        ^
A word is missing behind what stands here; a comment does not count.
END
told 'a wrong word' '14s/Input/Inputs/' <<'END'
lk.ibs:14:12: fault 10: A word, a name or the count of words is wrong.
> Model_type Inputs
             ^
`Inputs` is wrong here: look at the spelling, the letter case and the length (blanks count), and whether `=` belongs before it.
END
told 'a wrong name, behind blanks' '7s/R_pkg/ \tR_pk/' <<'END'
lk.ibs:7:3: fault 10: A word, a name or the count of words is wrong.
>  	R_pk 250m NA NA
   	^
`R_pk` is wrong here: look at the spelling, the letter case and the length (blanks count), and whether `=` belongs before it.
END
told 'a wrong word before a comment' '14s/Input/input|Input/' <<'END'
lk.ibs:14:12: fault 10: A word, a name or the count of words is wrong.
> Model_type input|Input
             ^
`input` is wrong here: look at the spelling, the letter case and the length (blanks count), and whether `=` belongs before it.
END
told 'an argument that is too long' '5s/House/The House of very long names that go on and on/' <<'END'
lk.ibs:5:16: fault 10: A word, a name or the count of words is wrong.
> [Manufacturer] The House of very long names that go on and on
                 ^
`The` is wrong here: look at the spelling, the letter case and the length (blanks count), and whether `=` belongs before it.
END
told 'a missing equals sign' '14a Vinl 1' <<'END'
lk.ibs:15:6: fault 10: A word, a name or the count of words is wrong.
> Vinl 1
       ^
`1` is wrong here: look at the spelling, the letter case and the length (blanks count), and whether `=` belongs before it.
END
told 'an equals sign right behind a name' '14s/ /=/' <<'END'
lk.ibs:14:11: fault 10: A word, a name or the count of words is wrong.
> Model_type=Input
            ^
No `=` may stand here: leave it out, with a blank in its place.
END
told 'an equals sign as a word' '14s/ / = /' <<'END'
lk.ibs:14:12: fault 10: A word, a name or the count of words is wrong.
> Model_type = Input
             ^
No `=` may stand here: leave it out, with a blank in its place.
END
told 'NA for a typ' '7s/250m/nA/' <<'END'
lk.ibs:7:7: fault 11: A word is not a number, and must be one.
> R_pkg nA NA NA
        ^
Here a number must stand: NA is for min and max, for a pin's own values and inside a table.
END
told 'no number' '7s/NA NA/NA x|y/' <<'END'
lk.ibs:7:15: fault 11: A word is not a number, and must be one.
> R_pkg 250m NA x|y
                ^
`x` is no number. A number is perhaps a sign, digits with at most one point, perhaps a power, then letters only.
END
told 'a second equals sign' '14a Vinl==1' <<'END'
lk.ibs:15:6: fault 11: A word is not a number, and must be one.
> Vinl==1
       ^
`=1` is no number. A number is perhaps a sign, digits with at most one point, perhaps a power, then letters only.
END
told 'a slope of two strokes' '/End/i [Ramp]\ndV/dt_r 1/1n 1//2n NA' <<'END'
lk.ibs:18:14: fault 11: A word is not a number, and must be one.
> dV/dt_r 1/1n 1//2n NA
               ^
`1//2n` is not two numbers with one `/` between. A number is perhaps a sign, digits with at most one point, perhaps a power, then letters only.
END
told 'a slope of one number' '/End/i [Ramp]\ndV/dt_r 1/1n NA NA\ndV/dt_f 1n NA NA' <<'END'
lk.ibs:19:9: fault 11: A word is not a number, and must be one.
> dV/dt_f 1n NA NA
          ^
`1n` is not two numbers with one `/` between. A number is perhaps a sign, digits with at most one point, perhaps a power, then letters only.
END
told 'a slope over no number' '/End/i [Ramp]\ndV/dt_r\t1/x NA NA' <<'END'
lk.ibs:18:9: fault 11: A word is not a number, and must be one.
> dV/dt_r	1/x NA NA
         	^
`1/x` is not two numbers with one `/` between. A number is perhaps a sign, digits with at most one point, perhaps a power, then letters only.
END
told 'NA for the typ of a slope' '/End/i [Ramp]\ndV/dt_r NA NA NA' <<'END'
lk.ibs:18:9: fault 11: A word is not a number, and must be one.
> dV/dt_r NA NA NA
          ^
Here a number must stand: NA is for min and max, for a pin's own values and inside a table.
END
told 'a number out of range' '8s/15nH/1e99/' <<'END'
lk.ibs:8:7: fault 12: A number is out of range.
> L_pkg 1e99 NA NA
        ^
Look at `1e99`. At most 15 digits, and a power of ten from -40 to 24. M is mega, m is milli.
END
told 'a bar where another character begins comments' '1a [Comment Char] !_char
7s/$/ | 4/' <<'END'
lk.ibs:8:18: fault 10: A word, a name or the count of words is wrong.
> R_pkg 250m NA NA | 4
                   ^
`|` is one word too many, or misspelled: those before it are enough, and `=` counts as one.
END
told 'a missing cell before another comment character' '1a [Comment Char] !_char
7s/NA NA/NA!NA/' <<'END'
lk.ibs:8:14: fault 10: A word, a name or the count of words is wrong.
> R_pkg 250m NA!NA
               ^
A word is missing behind what stands here; a comment does not count.
END
told '[Comment Char] without an argument' '1a [Comment Char]  ' <<'END'
lk.ibs:2:17: fault 10: A word, a name or the count of words is wrong.
> [Comment Char]  
                  ^
A word is missing behind what stands here; a comment does not count.
END
told '[Comment Char] with a word too many' '1a [Comment Char] !_char | x' <<'END'
lk.ibs:2:23: fault 10: A word, a name or the count of words is wrong.
> [Comment Char] !_char | x
                        ^
`|` is one word too many, or misspelled: those before it are enough, and `=` counts as one.
END
told '[Comment Char] with a wrong word' '1a [Comment Char] |_chars' <<'END'
lk.ibs:2:16: fault 10: A word, a name or the count of words is wrong.
> [Comment Char] |_chars
                 ^
`|_chars` is wrong here: look at the spelling, the letter case and the length (blanks count), and whether `=` belongs before it.
END

compare "$example"
for file in "$folder"/*.ibs; do
    compare "$file"
done
for number in {1..17} {19..21}; do # 25 is no fault of a file: enough rows are lent here
    hold "fault $number" met "$([[ $met == *" $number "* ]] && echo met || echo 'not met')"
done
echo "explain: $passed passed, $failed failed"
[ "$failed" -eq 0 ]
