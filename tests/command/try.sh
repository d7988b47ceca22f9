#!/usr/bin/env bash
# try.sh HVEROLDA PROGRAMS, at the root: tries the command and the programs in Rattle as a person would, and
# looks at both streams and the status. It says what is not as it must be, and nothing where all is well.
set -uo pipefail
hverolda=$1 programs=$2 cases=tests/cases
x=$cases/01-x.edi respelled=$cases/13-respelled.edi wrong=$cases/02-unt-count-4.edi six=';*.! ~'
work=$(mktemp -d)
trap 'rm -rf "$work"' EXIT
exec </dev/null
failures=0

complain() {
    echo "try: $*"
    failures=$((failures + 1))
}

# expect STATUS OUT ERR COMMAND..: OUT and ERR are patterns for all of a stream
expect() {
    local status out err
    "${@:4}" >"$work/out" 2>"$work/err"
    status=$?
    out=$(tr '\0' '?' <"$work/out") err=$(tr '\0' '?' <"$work/err")
    # shellcheck disable=SC2053
    if [[ $status != "$1" || $out != $2 || $err != $3 ]]; then
        complain "${*:4}: status $status for $1"
        printf '  output %q for %q\n  errors %q for %q\n' "$out" "$2" "$err" "$3"
    fi
}

# lines N: how many the last command printed
lines() {
    local count
    count=$(wc -l <"$work/out")
    [[ $count == "$1" ]] || complain "$count lines for $1"
}

# operands_of NAME: what stands before the last file
operands_of() {
    case $1 in
        compare | keep) operands=("$x") ;;
        locate) operands=(2 2 0 0) ;;
        write | respell) operands=("$six") ;;
        acknowledge) operands=(--date 261115:0842 --reference A1 --message CONTRL:4:1:UN) ;;
        import) operands=(--service "$six") ;;
        shelf) operands=("$work/shelf" put) ;;
        *) operands=() ;;
    esac
}

closed() { "$@" >&-; }
full() { "$@" >/dev/full; }
deaf() { "$@" 2>&-; }
# under an emulator the guest's stack is bounded, and the memory, of which its own would count, is not
small() { if [[ -n ${EMULATED-} ]]; then QEMU_STACK_SIZE=524288 "$@"; else (ulimit -s 512 && "$@"); fi; }
narrow() { ([[ -n ${EMULATED-} ]] || ulimit -v 100000 && "$@"); }
# a gigabyte of one byte, of which the reader takes what it wants
gigabyte() { head -c 1000000000 /dev/zero 2>/dev/null | tr '\0' "${1-\0}" 2>/dev/null; }

accepted='accepted 5 1 0 93'
sentence="UNT says 4, there are 3 segments from UNH (segment 2) *"
commands=(judge normalise compare keep locate read write respell acknowledge export import report shelf)
# nearly all of its 31,900 bytes end an empty value: as many values as an interchange can have
{
    printf "UNB+UNOA:1+AA+BB+260105:0930+R1'UNH+1+ORDERS:1:901:UN'BGM"
    printf '+%.0s' {1..31800}
    printf "A'UNT+3+1'UNZ+1+R1'"
} >"$work/wide"

# ---- the command: what it answers

expect 0 "$accepted" '' "$hverolda" judge "$x"
expect 0 "$accepted" '' "$hverolda" judge <"$x"
expect 0 "$accepted" '' "$hverolda" judge - <"$x"
expect 1 "refused 12 67: $sentence" '' "$hverolda" judge "$wrong"
expect 1 "$x: $accepted"$'\n'"$wrong: refused 12 67: $sentence" '' "$hverolda" judge "$x" "$wrong"
expect 1 '*' '' "$hverolda" judge "$cases"/*.edi
sed -E 's/(refused [0-9]+ [0-9]+): .*/\1/' "$work/out" |
    diff <(sed "s|^|$cases/|; s/ /.edi: /" "$cases/EXPECTED") - || complain 'judge and the stored answers'
expect 0 "UNA:+.? '$(cat "$x")" '' "$hverolda" normalise "$respelled"
cmp -s <(printf "UNA:+.? '" && cat "$x") "$work/out" || complain 'a normal form has a byte besides'
expect 1 '' "hverolda: $wrong: refused 12 67: $sentence" "$hverolda" normalise "$wrong"
# one segment a line
sed "s/'/&\r\n/g" "$x" >"$work/in-lines"
[[ $(wc -c <"$work/in-lines") -eq 94 ]] || complain 'five lines of X have not 94 bytes'
expect 0 "$accepted" '' "$hverolda" judge "$work/in-lines"

# by a table of message structures: a text, with the line at fault, and its bytes
expect 0 'accepted 18 1 0 316' '' "$hverolda" judge --table tests/tables/orders.txt tests/tables/order.edi
expect 1 'refused 22 67: *' '' "$hverolda" judge --table tests/tables/orders.txt "$x"
printf 'BGM M 1\ngroup C 9\n  LIN C 1\n' >"$work/unsound"
expect 1 "refused 21 2: *, line 3 of $work/unsound" '' "$hverolda" judge --table "$work/unsound" "$x"
printf 'BGM M 1\n\nLINE C 1\n' >"$work/no-table"
expect 2 '' "hverolda: $work/no-table: line 3: 'LINE' is no tag of three bytes" "$hverolda" judge --table "$work/no-table" "$x"
printf 'BGMM\0\1\0\0' >"$work/table"
expect 0 "$accepted" '' "$hverolda" judge --table "$work/table" -- "$x"
printf 'BGMM\0\1\0\0A' >"$work/part"
expect 1 "refused 21 1: *, entry 1 of $work/part" '' "$hverolda" judge --table "$work/part" "$x"
expect 2 '' 'hverolda: --table <TABLE> wants a value*' "$hverolda" judge --table
expect 0 "$accepted" '' "$hverolda" judge "$x" --table "$work/table"
expect 0 "$accepted" '' "$hverolda" judge "$x" "--table=$work/table"
# its text: tabs beside spaces, a tag as a group's name, more than is read, numbers, a byte order mark, standard input
table_says() { # STATUS OUT ERR TEXT: what becomes of X by the table that the text tells
    # shellcheck disable=SC2059
    printf "$4" >"$work/text"
    expect "$1" "$2" "$3" "$hverolda" judge --table "$work/text" "$x"
}
table_says 2 '' "hverolda: $work/text: line 3: tabs and spaces *" 'a C 1\n  LIN M 1\n\tTXT C 1\n'
table_says 2 '' "hverolda: $work/text: line 3: tabs and spaces *" 'a C 1\n\tLIN M 1\n        TXT C 1\n'
table_says 2 '' "hverolda: $work/text: line 1: 'BGM' is a tag, *" 'BGM M 1\n DTM M 1\n'
table_says 2 '' "hverolda: $work/text: line 3: it has white space *" 'a C 1\n  LIN M 1\n\302\240b C 1\n'
table_says 2 '' "hverolda: $work/text: line 1: '+5' is no number *" 'BGM M +5\n'
table_says 2 '' "hverolda: $work/text: line 1: '007' is no number *" 'BGM M 007\n'
table_says 0 "$accepted" '' '\357\273\277BGM M 1\r\nlines C 999\n\tLIN M 1\n\ttexts C 9\n\t  FTX M 1'
table_says 1 "refused 21 0: *, line 1 of $work/text" '' 'BGM M 1000\n'
{ echo 'BGM M 1' && yes '# no line' | head -c 532288; } >"$work/long-text"
expect 2 '' "hverolda: $work/long-text: the text of a table has fewer than 532288 bytes" "$hverolda" judge --table "$work/long-text" "$x"
expect 0 "$accepted" '' "$hverolda" judge --table - "$x" <"$work/table"
expect 2 '' 'hverolda: standard input, or a pipe, can be read only once*' "$hverolda" judge --table - <"$work/table"
expect 0 "UNA:+.? '$(cat "$x")" '' "$hverolda" normalise "$work/in-lines"
cmp -s <(printf "UNA:+.? '" && cat "$x") "$work/out" || complain 'a line break reaches the normal form'
expect 0 "keep 2 $x" '' "$hverolda" keep "$work/in-lines" "$x"
expect 0 'at 66 4 A[?]+B' '' "$hverolda" locate 2 2 0 0 "$work/in-lines"
expect 0 same '' "$hverolda" compare "$x" "$respelled"
expect 0 same '' "$hverolda" compare - "$respelled" <"$x"
expect 1 different '' "$hverolda" compare "$x" "$cases/11-plain-plus.edi"
expect 1 "refused 2 12 67: $sentence" '' "$hverolda" compare "$x" "$wrong"
expect 0 "keep 2 $x" '' "$hverolda" keep "$respelled" "$x"
expect 1 different '' "$hverolda" keep "$x" "$cases/11-plain-plus.edi"
expect 0 'at 62 4 A[?]+B' '' "$hverolda" locate 2 2 0 0 "$x"
expect 1 absent '' "$hverolda" locate 2 2 0 1 "$x"
expect 1 absent '' "$hverolda" locate 18446744073709551615 0 0 0 "$x"
expect 1 "refused 12 67: $sentence" '' "$hverolda" locate 2 2 0 0 "$wrong"
expect 0 $'0 UNB\n1 UNOA\n2 1\n*1 A+B\n*' '' "$hverolda" read "$x"
lines 23
expect 1 '' "hverolda: $wrong: refused input 12 67: $sentence" "$hverolda" respell "$six" "$wrong"
expect 1 '' "hverolda: $x: refused text 16 16: *" "$hverolda" respell '+*.  ~' "$x"
# version 4: a value of its second repeat, its values, and itself from them; without a repetition separator it cannot be
# spelled, nor under version 1 with one
four="UNB+UNOB:4+AA+BB+20260105:0930+R1'UNH+1+ORDERS:1:901:UN'RFF+ON:1*ON:2'UNT+3+1'UNZ+1+R1'"
printf %s "$four" >"$work/version-4"
expect 0 'at 68 1 2' '' "$hverolda" locate 2 1 1 1 "$work/version-4"
expect 1 absent '' "$hverolda" locate 2 1 2 0 "$work/version-4"
expect 0 "*"$'0 RFF\n1 ON\n2 1\n3 ON\n2 2\n0 UNT\n'"*" '' "$hverolda" read "$work/version-4"
cp "$work/out" "$work/values"
expect 0 '*' '' "$hverolda" write ":+.?*'" "$work/values"
cmp -s <(printf %s "UNA:+.?*'$four") "$work/out" || complain 'version 4 is not written as it was read'
expect 1 '' "hverolda: $work/values: refused text 16 17: *" "$hverolda" write ":+.? '" "$work/values"
expect 1 '' "hverolda: $x: refused text 7 9: *" "$hverolda" respell ";*.!%~" "$x"
mapfile -t good < <(awk '$2 == "accepted" { print $1 }' "$cases/EXPECTED")
[[ ${#good[@]} -gt 10 ]] || complain "only ${#good[@]} accepted cases"
for input in "${good[@]}"; do
    service=$six
    # version 4, whose normal form has its repetition separator in the eighth place, needs one
    [[ $("$hverolda" normalise "$cases/$input.edi" | head -c 8) == *\* ]] && service=';*.!%~'
    "$hverolda" read "$cases/$input.edi" >"$work/values"
    expect 0 '*' '' "$hverolda" respell "$service" "$cases/$input.edi"
    cp "$work/out" "$work/text"
    expect 0 '*' '' "$hverolda" write "$service" "$work/values"
    cmp -s "$work/text" "$work/out" || complain "$input: write and respell differ"
done
expect 1 '' 'hverolda: -: refused text 8 *' "$hverolda" write "$six" <<<$'0 UNB\n1 UNOA\n2 1\n1 \\x41\\x0a'
expect 1 '' 'hverolda: -: refused text 15 1: *' "$hverolda" write "$six" <<<$'0 UNB\n7 UNOA'
expect 1 '' 'hverolda: -: refused text 15 2: *' "$hverolda" write "$six" <<<$'0 UNB\n1 UNOA\n0 \\x0aUNZ'
expect 2 '' 'hverolda: -: line 2 is no kind and value' "$hverolda" write "$six" <<<$'0 UNB\n1UNOA'
expect 2 '' 'hverolda: -: line 1 is no kind and value' "$hverolda" write "$six" <<<'0 UNB\x4'
cp "$x" "$work/"$'a\naccepted 5 1 0 93'
expect 0 "?'*/a?naccepted 5 1 0 93': $accepted"$'\n'"$x: $accepted" '' "$hverolda" judge "$work/"a* "$x"
cp "$wrong" "$work/good.edi: accepted"
expect 1 "'*/good.edi: accepted': refused 12 *"$'\n'"$x: $accepted" '' "$hverolda" judge "$work/good"* "$x"

# the acknowledgement of every case, as it is stored; the options anywhere; what a value is made of
operands_of acknowledge
while read -r input stated; do
    case $stated in
        refused*) expect 1 '' "hverolda: $cases/$input.edi: refused input ${stated#refused }: it cannot be *" "$hverolda" acknowledge "$cases/$input.edi" "${operands[@]}" ;;
        *)
            expect 0 '*' '' "$hverolda" acknowledge "$cases/$input.edi" "${operands[@]}"
            cmp -s <(printf %s "$stated") "$work/out" || complain "$input: another acknowledgement than the stored one"
            ;;
    esac
done <"$cases/EXPECTED-ACKNOWLEDGE"
expect 0 "UNA:+.? 'UNB+UNOA:1+BB+AA+261115:0842+A1'*+7'*" '' "$hverolda" acknowledge --date 261115:0842 - --message CONTRL:4:1:UN --reference A1 <"$x"
expect 0 "*+A[?]:[?][*][?]''UNH*UNZ+1+A[?]:[?][*][?]''" '' "$hverolda" acknowledge --date 1 --message CONTRL --reference 'A\x3a\x2a\x27' "$cases/86-version-4.edi"
expect 0 "UNA:+.[?]?'UNB+UNOB:4+BB+AA:Z?A:Y+1:2?3+A1'UNH*UCI+R1+AA:Z?A:Y+BB+7'*" '' "$hverolda" acknowledge --date '1:2*3' --message CONTRL --reference A1 <(sed 's/+AA+/+AA:Z*A:Y+/' "$work/version-4")
expect 1 '' "hverolda: -: refused input 23 0: it cannot be acknowledged: UNB names no sender*" "$hverolda" acknowledge "${operands[@]}" < <(sed 's/+AA+/++/' "$x")
expect 1 '' "hverolda: -: refused input 23 0: it cannot be acknowledged: UNB's control reference is missing*" "$hverolda" acknowledge "${operands[@]}" < <(sed 's/+R1/+/' "$x")
expect 1 '' "hverolda: -: refused input 23 0: *" narrow "$hverolda" acknowledge "${operands[@]}" < <(gigabyte)
expect 1 '' "hverolda: $x: refused text 16 6: *" "$hverolda" acknowledge --date '1*2' --message CONTRL --reference A1 "$x"
expect 1 '' "hverolda: $x: refused text 10 9: *" "$hverolda" acknowledge --date 1 --message CONTRL --reference A:1 "$x"
expect 1 '' "hverolda: $x: refused text 8 26: *" "$hverolda" acknowledge --date a --message CONTRL --reference A1 "$x"
expect 1 '' "hverolda: $x: refused text 15 0: *" "$hverolda" acknowledge --date '\x0a1' --message CONTRL --reference A1 "$x"
expect 2 '' "hverolda: a backslash is *" "$hverolda" acknowledge --date '1\' --message CONTRL --reference A1 "$x"
expect 2 '' "hverolda: missing: --reference <REFERENCE>*" "$hverolda" acknowledge --date 1 --message CONTRL "$x"
expect 0 "*+??????:????+A1'UNH+1+CONTRL:2:2:UN'*" '' "$hverolda" acknowledge --reference A1 "$x"
expect 0 "*+????????:????+A1'UNH+1+CONTRL:4:1:UN'*" '' "$hverolda" acknowledge --reference A1 "$cases/86-version-4.edi"
"$hverolda" acknowledge --reference A1 "$x" >"$work/contrl"
expect 1 '' "hverolda: $work/contrl: it holds a CONTRL*" "$hverolda" acknowledge --reference A2 "$work/contrl"
expect 0 'UNA*' '' "$hverolda" acknowledge --reference A2 --force "$work/contrl"
expect 2 '' 'hverolda: of several files *' "$hverolda" acknowledge --reference A "$x" "$x"
expect 2 '' "hverolda: --date <DATE> is given twice*" "$hverolda" acknowledge --date 1 --date 2 "$x"
expect 2 '' "hverolda: --date <DATE> wants a value*" "$hverolda" acknowledge "$x" --date
expect 0 "*+A1'*+A1'*+A2'*+A2'" '' "$hverolda" acknowledge "${operands[@]}" "$x" "$x"

# in columns, as it is stored, and back: the stored cases of version 4, and all that are accepted
for input in "$cases"/*.tsv; do
    expect 0 '*' '' "$hverolda" export "${input%.tsv}.edi"
    cmp -s "$input" "$work/out" || complain "$input: other columns than the stored ones"
done
for input in "${good[@]}"; do
    service=$six
    [[ $("$hverolda" normalise "$cases/$input.edi" | head -c 8) == *\* ]] && service=';*.!%~'
    "$hverolda" export "$cases/$input.edi" >"$work/columns"
    expect 0 '*' '' "$hverolda" import --service "$service" "$work/columns"
    cp "$work/out" "$work/text"
    expect 0 '*' '' "$hverolda" respell "$service" "$cases/$input.edi"
    cmp -s "$work/text" "$work/out" || complain "$input: there and back is another text than respell writes"
    expect 0 '*' '' "$hverolda" export "$work/text"
    cmp -s "$work/columns" "$work/out" || complain "$input: back and there gives other columns"
done
expect 0 "$(cat "$respelled")" '' "$hverolda" import "$cases/01-x.tsv" --service "$six"
expect 0 "UNA*UNA*" '' "$hverolda" import "$cases/01-x.tsv" - --service "$six" <"$cases/01-x.tsv"
expect 1 '' "hverolda: $wrong: refused 12 67: $sentence" "$hverolda" export "$wrong"
# what a spreadsheet does to it, and other slips
columns_say() { # STATUS OUT ERR SED: what becomes of X in columns after this change
    sed "$4" "$cases/01-x.tsv" >"$work/columns"
    expect "$1" "$2" "hverolda: $work/columns: $3" "$hverolda" import --service "$six" "$work/columns"
}
none='refused input 24 0: '
columns_say 1 '' "${none}line 1: it ends in a carriage return*" 's/$/\r/'
columns_say 1 '' "${none}line 5: it ends in a carriage return*" '5s/$/\r/'
columns_say 1 '' "${none}line 2: it has quotes around a number or a name*" '2s/^0/"0"/'
columns_say 1 '' "${none}line 1: it begins with a byte order mark*" '1s/^/\xef\xbb\xbf/'
for slip in 's/\t/,/g' '3s/^0/00/' '3s/^0/+0/' '5d' '4i\\' '9s/$/\t/' '1s/s/S/' '1d'; do
    columns_say 1 '' "${none}line *" "$slip"
done
expect 1 '' "hverolda: -: ${none}line *" "$hverolda" import --service "$six" < <(head -c -1 "$cases/01-x.tsv")
expect 1 '' "hverolda: -: ${none}line *" "$hverolda" import --service "$six" < <(cat "$cases/01-x.tsv" && printf '4\t3\t0\t0\t\n')
expect 1 '' "hverolda: -: ${none}line *" "$hverolda" import --service "$six" </dev/null
expect 1 '' "hverolda: -: refused text 3 9: *" "$hverolda" import --service "$six" < <(head -n 1 "$cases/01-x.tsv")
# quotes around a value are taken for bytes of it, which the standard allows
sed 's/\tAA$/\t"AA"/' "$cases/01-x.tsv" >"$work/columns"
expect 0 '*"AA"*' '' "$hverolda" import --service "$six" "$work/columns"
columns_say 1 '' 'refused text 8 *' 's/\tAA$/\taa/'
columns_say 1 '' 'refused text 12 *' 's/^3\t1\t0\t0\t3$/3\t1\t0\t0\t4/'
expect 1 '' "hverolda: $cases/87-repeats-in-any-element.tsv: refused text 16 *" "$hverolda" import --service "$six" "$cases/87-repeats-in-any-element.tsv"
expect 2 '' 'hverolda: missing: --service <SERVICE>*' "$hverolda" import "$cases/01-x.tsv"
expect 2 '' "hverolda: * is not taken for --service <SERVICE>: it must be six *" "$hverolda" import --service "$cases/01-x.tsv"
expect 2 '' 'hverolda: --service <SERVICE> wants a value*' "$hverolda" import --service
expect 2 '' 'hverolda: -: more bytes than the columns *' narrow "$hverolda" import --service "$six" < <(gigabyte)

# on a terminal, the bytes around the place and a mark under the one that is meant: UNT's first
on_terminal() { script -qec "$*" /dev/null | tr -d '\r'; }
expect 1 $'\e[31mrefused\e[0m'" 12 67: $sentence"$'\n'"    *UNT*"$'\n'"    *^" '' on_terminal "$hverolda" judge "$wrong"
expect 1 "refused 12 67: $sentence"$'\n'"    *UNT*"$'\n'"    *^" '' on_terminal env NO_COLOR=1 "$hverolda" judge "$wrong"
mapfile -t shown <"$work/out"
mark=${shown[2]%^}
[[ ${shown[1]:${#mark}:3} == UNT ]] || complain "the mark stands under '${shown[1]:${#mark}:3}'"

# ---- the command: the morning figures of mailbox files

# figures ACCEPTED SEGMENTS MESSAGES TOTAL LONGEST [NUMBER=COUNT]..: the lines that say them, the others being 0
figures() {
    local number count
    printf 'accepted\t%s\n' "$1"
    for number in {1..13}; do
        count=0
        for pair in "${@:6}"; do [[ $pair == "$number="* ]] && count=${pair#*=}; done
        printf 'refused by %s\t%s\n' "$number" "$count"
    done
    printf 'segments\t%s\nmessages\t%s\ntotal of normal lengths\t%s\nlongest normal length\t%s\n' "$2" "$3" "$4" "$5"
}
# each_of LABEL FIGURES: the lines, each after a label
each_of() { sed "s|^|$1|" <<<"$2"; }
{ cat "$x" && printf '\r\n' && cat "$respelled" "$wrong" && printf 'rest'; } >"$work/mailbox"
morning=$(figures 2 10 2 186 93 3=1 12=1)
expect 0 "$morning" '' "$hverolda" report "$work/mailbox"
expect 0 "$morning" '' "$hverolda" report <"$work/mailbox"
expect 0 "$(figures 0 0 0 0 0)" '' "$hverolda" report /dev/null
head -c 65536 /dev/zero | tr '\0' "'" >"$work/terminators"
expect 0 "$(figures 0 0 0 0 0 1=1)" '' "$hverolda" report "$work/terminators"
{ cat "$work/terminators" && printf "'"; } >"$work/longer"
over='refused 1 0: the file has more than 65536 bytes'
expect 1 "$over" '' "$hverolda" report "$work/longer"
expect 1 "$over" '' narrow "$hverolda" report < <(gigabyte)
expect 1 "$(each_of "$work/mailbox: " "$morning")"$'\n'"$work/longer: $over"$'\n'"$(each_of "$x: " "$(figures 1 5 1 93 93)")
$(each_of 'all files: ' "$(figures 3 15 3 279 93 3=1 12=1)")"$'\nall files: files\t2' '' "$hverolda" report "$work/mailbox" "$work/longer" "$x"
expect 2 '' 'hverolda: standard output: No space left*' full "$hverolda" report "$x"

# ---- the command: a shelf in a file (shelf.pl kills it and runs eight at once)

shelf=$work/shelf plain=$cases/11-plain-plus.edi
# on SHELF..: what is done with it
on() { "$hverolda" shelf "$@"; }
unsound='refused 19 0: *'
expect 2 '' "hverolda: $shelf: No such file*" on "$shelf" put "$x"
expect 0 'started 65536' '' on "$shelf" start
[[ $(wc -c <"$shelf") == 65536 ]] || complain 'a shelf of another size'
expect 2 '' "hverolda: $shelf: File exists*" on "$shelf" start
expect 0 'new 0' '' on "$shelf" put "$x"
expect 1 'copy 0' '' on "$shelf" put "$respelled"
expect 1 'copy 0' '' on "$shelf" put <"$work/in-lines"
expect 3 "$x: copy 0"$'\n'"$plain: new 1"$'\n'"$wrong: refused 12 67: *" '' on "$shelf" put "$x" "$plain" "$wrong"
expect 0 $'occupied 2\nheld 185\nfree 64818\nduplicates 3\n0 93\n1 92' '' on "$shelf" list
expect 0 "UNA:+.? '$(cat "$x")" '' on "$shelf" get 0
cmp -s <(printf "UNA:+.? '" && cat "$x") "$work/out" || complain 'a kept text has a byte besides'
for slot in 2 63 64 18446744073709551615; do
    expect 1 '' "hverolda: $shelf: refused 20 $slot: *" on "$shelf" get "$slot"
    expect 1 "refused 20 $slot: *" '' on "$shelf" remove "$slot"
done
expect 0 'removed 93' '' on "$shelf" remove 0
expect 0 $'occupied 1\nheld 92\nfree 64911\nduplicates 3\n1 92' '' on "$shelf" list
expect 0 'new 0' '' on "$shelf" put "$respelled"
expect 0 'UNA*A+B*' '' on "$shelf" get 1

# sizes, and a shelf that is full
for size in 0 525 532 65537 18446744073709551615; do
    expect 2 '' "hverolda: $work/other: $unsound" on "$work/other" start "$size"
done
[[ ! -e $work/other ]] || complain 'a file of another size'
expect 0 'started 533' '' on "$work/least" start 533
expect 2 '' "hverolda: $x: refused 18 93: *" on "$work/least" put "$x"
expect 0 $'occupied 0\nheld 0\nfree 0\nduplicates 0' '' on "$work/least" list
mkdir "$work/many"
for number in {100..164}; do
    sed "s/R1/R$number/g" "$x" >"$work/many/$number"
done
# each text has 97 bytes
expect 0 'started 6741' '' on "$work/full" start $((533 + 64 * 97))
expect 0 "*/100: new 0"$'\n'"*/163: new 63" '' on "$work/full" put "$work/many/"1[0-5]? "$work/many/"16[0-3]
lines 64
expect 2 '' "hverolda: $work/many/164: refused 17 64: *" on "$work/full" put "$work/many/164"
expect 1 'copy 63' '' on "$work/full" put "$work/many/163"
expect 0 $'occupied 64\nheld 6208\nfree 0\nduplicates 1\n0 97\n*63 97' '' on "$work/full" list
expect 0 'removed 97' '' on "$work/full" remove 31
expect 0 'new 31' '' on "$work/full" put "$work/many/164"

# the duplicates found stay at their most; then a copy changes nothing
# store FILE PLACE BYTES: bytes as printf spells them
store() { printf "$3" | dd of="$1" bs=1 seek="$2" conv=notrunc status=none; }
cp "$shelf" "$work/most"
store "$work/most" 17 '\377\377\377\376'
expect 1 'copy 0' '' on "$work/most" put "$x"
expect 0 $'occupied 2\nheld 185\nfree 64818\nduplicates 4294967295\n*' '' on "$work/most" list
cp "$work/most" "$work/before"
expect 1 'copy 0' '' on "$work/most" put "$respelled"
cmp -s "$work/before" "$work/most" || complain 'more duplicates than can be told'

# a damaged shelf is refused and left as it is, and so is what is no shelf, or one of version 1
cp "$shelf" "$work/damaged"
store "$work/damaged" 533 V
cp "$shelf" "$work/another-sum"
store "$work/another-sum" 13 '\0\0\0\272'
: >"$work/empty"
{
    printf 'EDS\0\1\0\0\0\0\0\0\0\1\0\0\2\015\0\0\0\135' && head -c 504 /dev/zero
    printf "UNA:+.? '" && cat "$x" && head -c 100 /dev/zero
} >"$work/version-1"
{ printf 'EDS\0\1' && head -c 520 /dev/zero; } >"$work/empty-1"
for other in damaged another-sum empty version-1 empty-1 many/100; do
    cp "$work/$other" "$work/before"
    for change in "put $x" 'remove 0' 'get 0' list; do
        # shellcheck disable=SC2086
        expect 2 '' "hverolda: $work/$other: $unsound" on "$work/$other" $change
    done
    cmp -s "$work/before" "$work/$other" || complain "$other is changed"
done

# an old shelf is carried over, and back: slots and texts stay, and there and back gives the same bytes
cp "$work/version-1" "$work/old"
expect 0 'carried' '' on "$work/old" carry
expect 0 $'occupied 1\nheld 93\nfree 92\nduplicates 0\n0 93' '' on "$work/old" list
expect 0 "UNA:+.? '$(cat "$x")" '' on "$work/old" get 0
expect 1 'copy 0' '' on "$work/old" put "$respelled"
expect 2 '' "hverolda: $work/old: $unsound" on "$work/old" carry
expect 0 'carried back' '' on "$work/old" carry-back
cmp -s "$work/version-1" "$work/old" || complain 'there and back gives other bytes'
expect 2 '' "hverolda: $work/old: $unsound" on "$work/old" carry-back
expect 2 '' "hverolda: $work/old: $unsound" on "$work/old" put "$x"
# the sums need eight free bytes; what is sound in no version is refused both ways
for free in 0 7; do
    { cat "$work/empty-1" && head -c $free /dev/zero; } >"$work/old"
    expect 2 '' "hverolda: $work/old: refused 18 8: *" on "$work/old" carry
done
{ cat "$work/empty-1" && head -c 8 /dev/zero; } >"$work/old"
expect 0 'carried' '' on "$work/old" carry
expect 0 $'occupied 0\nheld 0\nfree 0\nduplicates 0' '' on "$work/old" list
for other in damaged another-sum empty many/100; do
    cp "$work/$other" "$work/before"
    expect 2 '' "hverolda: $work/$other: $unsound" on "$work/$other" carry
    expect 2 '' "hverolda: $work/$other: $unsound" on "$work/$other" carry-back
    cmp -s "$work/before" "$work/$other" || complain "$other is changed"
done

mkfifo "$work/pipe"
for other in "$work" "$work/pipe" /dev/zero; do
    expect 2 '' "hverolda: $other: it is no regular file" on "$other" list
    expect 2 '' "hverolda: $other: it is no regular file" on "$other" put "$x"
    expect 2 '' "hverolda: $other: it is no regular file" on "$other" carry
done

# the file that takes its place has its permissions, and takes the place of what a link names
chmod 640 "$shelf"
ln -s shelf "$work/link"
expect 0 'new 2' '' on "$work/link" put "$work/many/100"
[[ -L $work/link && $(stat -c %a "$shelf") == 640 ]] || complain 'a link or a permission is lost'
expect 1 'copy 2' '' on "$shelf" put "$work/many/100"

# a file that cannot be written changes nothing; an answer that cannot be written comes after the change
limited() { (trap '' XFSZ && ulimit -f 16 && "$@"); }
cp "$shelf" "$work/before"
expect 2 '' "hverolda: $work/.shelf.hverolda-0: File too large*" limited on "$shelf" put "$work/many/101"
expect 2 '' "hverolda: $work/.shelf.hverolda-0: File too large*" limited on "$shelf" put "$x"
expect 2 '' "hverolda: $work/.shelf.hverolda-0: File too large*" limited on "$shelf" carry-back
expect 2 '' "hverolda: $work/.other.hverolda-0: File too large*" limited on "$work/other" start
cmp -s "$work/before" "$shelf" || complain 'half a shelf'
compgen -G "$work/.*.hverolda-*" && complain 'a file is left beside a shelf'
expect 2 '' 'hverolda: standard output: No space left*' full on "$shelf" put "$work/many/101"
expect 1 'copy 3' '' on "$shelf" put "$work/many/101"
# what a killed run left beside it is no hindrance; the last two are names that earlier versions gave
for ending in 0 3 7 new start; do
    cp "$x" "$work/.shelf.hverolda-$ending"
    cp "$x" "$work/.other.hverolda-$ending"
done
expect 0 'new 4' '' on "$shelf" put "$work/many/102"
expect 0 'started 65536' '' on "$work/other" start
compgen -G "$work/.*.hverolda-*" && complain 'a file is left beside a shelf'

expect 2 '' "hverolda: what is to be done*" on
expect 2 '' "hverolda: what is to be done*" on "$shelf"
expect 2 '' "hverolda: '$x' is one word too many*" on "$shelf" "$x"
expect 2 '' "hverolda: nothing is called 'lst' here; did you mean 'list'[?]*" on "$shelf" lst
expect 2 '' "hverolda: missing: <SLOT>*" on "$shelf" get
expect 2 '' "hverolda: '0' is one word too many*" on "$shelf" list 0
expect 2 '' "hverolda: '2' is one word too many*" on "$shelf" carry 2
expect 2 '' "hverolda: '1' is one word too many*" on "$shelf" carry-back 1
expect 2 '' "hverolda: '-1' is no option*" on "$shelf" get -1
expect 2 '' "hverolda: 'x' is not taken for <SLOT>: it must be digits alone*" on "$shelf" remove x

# ---- the command: what goes wrong

expect 2 '' 'hverolda: what is to be done*' "$hverolda"
expect 2 '' "hverolda: nothing is called 'frob'*" "$hverolda" frob
expect 2 '' "hverolda: nothing is called 'jugde' here; did you mean 'judge'[?]*" "$hverolda" jugde
expect 2 '' "hverolda: '--tabel' is no option here; did you mean '--table'[?]*" "$hverolda" judge --tabel=x
expect 0 '*Usage: hverolda *<COMMAND>*Exit status: *' '' "$hverolda" --help
expect 0 '*Usage: hverolda *<COMMAND>*Options:*' '' "$hverolda" -h
expect 0 '*Usage: hverolda judge *Exit status: *' '' "$hverolda" help judge
expect 0 '*Usage: hverolda shelf * put *' '' "$hverolda" help shelf put
expect 2 '' "hverolda: nothing is called 'jugde' here; did you mean 'judge'[?]*" "$hverolda" help jugde
expect 0 'hverolda * rules *' '' "$hverolda" -V
expect 0 "hverolda * rules $(sed -n 's/^#define HVEROLDA_RULES //p' include/hverolda.h)" '' "$hverolda" --version
for name in "${commands[@]}"; do
    expect 0 "*Usage: hverolda $name *Exit status: *" '' "$hverolda" "$name" --help
    expect 0 "*Usage: hverolda $name *" '' "$hverolda" "$name" -h
    expect 2 '' "hverolda: '--frob' is no option here"$'\n'"Try 'hverolda $name --help'." "$hverolda" "$name" --frob
    operands_of "$name"
    expect 2 '' "hverolda: $work/none: No such file*" "$hverolda" "$name" "${operands[@]}" "$work/none"
    expect 2 '' "hverolda: $work: Is a directory*-r goes through *" "$hverolda" "$name" "${operands[@]}" "$work"
    expect 2 '' 'hverolda: standard output: Bad file descriptor*' closed "$hverolda" "$name" "${operands[@]}" "$x"
    expect 2 '' 'hverolda: standard output: No space left*' full "$hverolda" "$name" --help
    expect 2 '' "hverolda: -: Bad file descriptor*" "$hverolda" "$name" "${operands[@]}" - <&-
done
for name in judge normalise; do
    expect 2 '' 'hverolda: standard output: No space left*' full "$hverolda" "$name" "$x"
done
expect 2 '' 'hverolda: standard output: No space left*' full "$hverolda" compare "$x" "$x"
# an argument that was forgotten, with an interchange on standard input that is not to be read
expect 2 '' "hverolda: '$x' is not taken for <SERVICE>: it must be six *" "$hverolda" respell "$x" <"$x"
expect 2 '' "hverolda: missing: <SERVICE>*" "$hverolda" write <"$x"
expect 2 '' "hverolda: '$x' is not taken for <COMPONENT>: *" "$hverolda" locate 2 2 0 "$x" <"$x"
expect 2 '' "hverolda: '$x' is not taken for <SEGMENT>: *" "$hverolda" locate "$x" <"$x"
expect 2 '' "hverolda: missing: <SECOND>*" "$hverolda" compare "$x" <"$x"
expect 2 '' 'hverolda: standard input, or a pipe, can be read only once*' "$hverolda" judge - - <"$x"
expect 2 '' 'hverolda: standard input, or a pipe, can be read only once*' "$hverolda" judge - /dev/stdin < <(cat "$x")
expect 2 '' 'hverolda: both names are of one file*' "$hverolda" keep "$x" "./$x"
expect 2 "$x: $accepted"$'\n'"$x: $accepted" "hverolda: $work/none: *" "$hverolda" judge "$x" "$work/none" "$x"
expect 2 "$x: $accepted" '' deaf "$hverolda" judge "$x" "$work/none"
expect 2 '' 'hverolda: --help: No such file*' "$hverolda" judge -- --help
expect 0 "*Usage: hverolda judge *" '' "$hverolda" judge "$x" --help

# ---- both: many files, a gigabyte, a small stack

mapfile -t many < <(printf "$x\n%.0s" {1..3000})
expect 0 '*' '' "$hverolda" judge "${many[@]}"
lines 3000
expect 0 '*' '' "$programs/run_judge" "${many[@]}"
lines 3000
expect 1 'refused 1 0: *' '' narrow "$hverolda" judge < <(gigabyte)
expect 1 '' 'hverolda: -: refused 1 0: *' narrow "$hverolda" read < <(gigabyte)
expect 2 '' 'hverolda: -: more lines than *' narrow "$hverolda" write "$six" < <(gigabyte)
expect 2 '' 'hverolda: -: more lines than *' narrow "$hverolda" write "$six" < <(gigabyte '\n' | sed 's/^/0 A/' 2>/dev/null)
expect 2 '' 'hverolda: -: more lines than *' narrow "$hverolda" write "$six" < <(printf '0 ' && gigabyte A)
expect 0 'refused 1 0' '' narrow "$programs/run_judge" < <(gigabyte)
expect 0 'refused input 1 0' '' narrow "$programs/run_respell" "$six" < <(gigabyte)
expect 0 'accepted 5 1 0 *' '' small "$hverolda" judge "$work/wide"
expect 0 same '' small "$hverolda" compare "$work/wide" "$work/wide"
expect 0 'UNA*' '' small "$hverolda" respell "$six" "$work/wide"
expect 0 'accepted 5 1 0 *' '' small "$programs/run_judge" "$work/wide"
expect 0 'same 1' '' small "$programs/run_compare" "$work/wide" "$work/wide"
expect 0 $'UNA*\nsame' '' small "$programs/run_respell" "$six" "$work/wide"
expect 0 'at 31857 1 A' '' small "$programs/run_locate" 2 31800 0 0 "$work/wide"

# ---- the programs in Rattle: a line for each input, whatever becomes of it, and status 0

trouble="$work/none: No such file or directory"$'\n'"$work: Is a directory"
expect 0 unreadable$'\n'unreadable$'\n'"$accepted" "$trouble" "$programs/run_judge" "$work/none" "$work" "$x"
expect 0 unreadable$'\n'unreadable$'\n'"UNA*"$'\n'same "$trouble" "$programs/run_respell" "$six" "$work/none" "$work" "$x"
expect 0 unreadable$'\n'unreadable$'\n''at 62 4 A[?]+B' "$trouble" "$programs/run_locate" 2 2 0 0 "$work/none" "$work" "$x"
expect 0 $'unreadable 2\nunreadable 1\nsame 2' "$trouble" \
    "$programs/run_compare" "$x" "$work/none" "$work" "$x" "$respelled" "$x"
expect 0 "$accepted" '' "$programs/run_judge" <"$x"
expect 0 'at 62 4 A[?]+B' '' "$programs/run_locate" 2 2 0 0 <"$x"
expect 0 $'UNA*\nsame' '' "$programs/run_respell" "$six" <"$x"
expect 0 '' 'usage: run_respell *' "$programs/run_respell" <"$x"
expect 0 '' 'usage: run_respell *' "$programs/run_respell" "$x" <"$x"
expect 0 '' 'usage: run_respell *' "$programs/run_respell" 01.edi <"$x"
expect 0 '' 'usage: run_locate *' "$programs/run_locate" 2 2 0 "$x" <"$x"
expect 0 '' 'usage: run_locate *' "$programs/run_locate" 2 2 0 1234567890 "$x"
expect 0 '' 'usage: run_locate *' "$programs/run_locate" 2 2 0 18446744073709551616 "$x"
expect 0 '' 'usage: run_compare *' "$programs/run_compare"
expect 0 '' 'usage: run_compare *' "$programs/run_compare" "$x"
expect 0 'refused text 16 16' '' "$programs/run_respell" '+*.  ~' "$x"
expect 0 $'started\nunreadable\nunreadable\nnew 0\ncopy 0\nsums 93 1\nUNA*\nremoved 93\nslots 0 0\nsums 0 1' "$trouble" \
    "$programs/run_shelf" 1000 put "$work/none" put "$work" put "$x" put "$respelled" sums - get 0 remove 0 slots - sums -
expect 0 $'started\nnew 0\ncarried back\nrefused 19 0\nrefused 19 0\ncarried\nrefused 19 0\nsums 93 0\ncopy 0' '' \
    "$programs/run_shelf" 1000 put "$x" back - back - get 0 carry - carry - sums - put "$respelled"
expect 0 'refused 19 0' '' "$programs/run_shelf" 532
expect 0 '' 'usage: run_shelf *' "$programs/run_shelf"
expect 0 '' 'usage: run_shelf *' "$programs/run_shelf" put "$x"
expect 0 $'started\nnew 0' '' small "$programs/run_shelf" 65536 put "$work/wide"
expect 0 '' $'standard output: Bad *\nstandard output: Bad *' closed "$programs/run_shelf" 1000 put "$x"
for name in judge compare locate respell; do
    operands_of "$name"
    expect 0 '' 'standard output: Bad file descriptor' closed "$programs/run_$name" "${operands[@]}" "$x"
    expect 0 '' 'standard output: No space left on device' full "$programs/run_$name" "${operands[@]}" "$x"
done

[[ $failures == 0 ]]
