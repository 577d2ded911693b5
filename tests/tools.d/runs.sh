# shellcheck shell=bash disable=SC2154 # the names are those of tests/tools
# Arguments, files and output; refusals in words; together with sharerun.

# ---- Arguments, files and output

usage() { "$program" --help | sed '/^$/,$d'; }

wrong_runs() {
    cp examples/parish.txt "$file"
    same "the commands of the usage" "$commands --help" "$(usage | sed 's/.*sharetext //; s/ .*//' | grep -v version | xargs)"
    for arguments in "" "input" "input a b" "explain a b" "explain --unify" "pairs $file --unify" "input $file --unify --unify" "input $file --packed" "apart $file X1" "apart $file X1 X2 X3" "why" "why $file" "why $file X1" "why $file X1 X2 X3" "why $file X1 X2 --packed" "why $file X1 X2 --after" "inputs $file" "-" "--after 1" "-h" \
        "pairs" "pairs $file X1" "pairs $file --after" "pairs $file --after 1 --after 1" "pairs --before 1 $file" "tables" "tables $file --after 1" \
        "show" "show $file $file" "show $file --after 1" "show $file --packed" "pairs $file --packed" \
        "form" "form $file $file" "form $file --packed --packed" "form $file --after" "form $file --pack" \
        "text" "text $file $file" "text $file --after 1" "text --packed" "text - --packed --packed" \
        "audit" "audit $file $file $file" "audit - -" "audit $file --write" "audit $file --write -" "audit $file --write $file" "audit $file --packed" "audit $file --text" "audit $file $file --text" \
        "audit $file $file --write $scratch/table" "audit $file --write $scratch/table --text --packed" "audit $file --unify" "audit $file --after" \
        "input $file --after 1" "explain --after 1" "apart $file - - -v" "apart $file --after=1 - -" "--help me" "help input" "Help"; do
        # shellcheck disable=SC2086 # the words are the arguments
        run $arguments
        ended "arguments $arguments" 2 "" "$(usage)"
    done
    asked 2 "" "$scratch/none: The file cannot be read: No such file or directory." input "$scratch/none"
    for command in apart why; do asked 2 "" "$scratch: The file cannot be read: Is a directory." "$command" "$scratch" X1 X2; done
    status=0
    "$program" explain <"$scratch" >"$out" 2>"$err" || status=$?
    ended "explain of a folder" 2 "" "standard input: The file cannot be read: Is a directory."
    "$program" form "$file" >"$scratch/form"
    cp "$file" "$scratch/parish"
    for arguments in "input $file" "explain" "apart $file Baptism Wedding" "apart $file Baptism Parish" "why $file Baptism Wedding" "why $file Baptism Parish" "pairs $file" "tables $file" "show $file" \
        "form $file" "form $file --packed" "text $scratch/form" "audit $file" "audit $file $scratch/form" --help; do
        status=0
        # shellcheck disable=SC2086
        "$program" $arguments <"$file" >/dev/full 2>"$err" || status=$?
        same "status of $arguments to a full device" 2 "$status"
        same "message of $arguments to a full device" "sharetext: The output cannot be written." "$(<"$err")"
    done
    printf 'vars 3\nX\n' >"$file"
    for arguments in "input -" "pairs -" "tables -" "show -" "form -" "form - --packed" "apart - - -" "why - - -" "audit -" "audit - $scratch/form" "audit $scratch/parish -"; do
        # shellcheck disable=SC2086
        run $arguments
        ended "$arguments of a wrong standard input" 2 "" "$(mistake "$file" 2 1 1 "X is not one of the variables of line 1." "X1, X2 or X3 $symbols" |
            sed "1s|$file|standard input|")"
    done
}

# ---- Refusals in words

# The text $1, with escapes, is copied by `explain` and given no words.
copied() {
    printf '%b' "$1" >"$file"
    run explain
    same "status of explain after $1" 0 "$status"
    same "what explain makes of $1" "" "$(cmp "$file" "$out" 2>&1)"
}

# The last run of `explain` had the status 1, copied the lines $1 and added lines of words, $2 in number.
explained() {
    same "status of explain" 1 "$status"
    same "lines that explain copies" "$1" "$(grep -v '^    ' "$out")"
    same "lines that explain adds" "$2" "$(grep -c '^    ' "$out")"
}

each_number() {
    local number word phrase
    while read -r number word phrase; do
        for line in "refused $number" "eq 12 refused $number"; do
            echo "$line" >"$file"
            run explain
            explained "$line" 1
            same "words after $line" "$line|    $word: |$phrase" \
                "$(head -n 1 "$out")|$(sed -n '2s/^\(    [a-z]*: \).*/\1/p' "$out")|$(sed -n 2p "$out" | grep -oF "$phrase")"
            same "advice after $line" 1 "$(sed -n 2p "$out" | grep -c '\. .*[Ll]ook \(at\|for\) ')"
        done
    done <<'END'
1 torn longer than 8192 bytes
2 width the number of variables is not 1 to 32
3 entries more than 256 entries
4 stray a bit above the last variable
5 name a variable is not one of X1 to Xl
6 term not one whole term
7 long more than 64 equations, or more than 1024 variables and symbols
8 full what is safe to go on with after it is the all-star table
9 narrow the output that the caller lent is too short
10 unlike two tables have different numbers of variables
11 keep a projection keeps no variable, or one above the last, or a group that is asked for is empty
12 digit a byte of a packed table is 243 or more
END
    for number in 0 13 65536 4294967301; do
        echo "refused $number" >"$file"
        run explain
        ended "refused $number" 1 "refused $number"$'\n    No refusal has this number.' ""
    done
}

# Which lines are refusals, and that everything else is copied as it is.
copies() {
    copied ''
    copied 'vars 1 entries 1\n1\neq 1 entries 0\n'
    for line in 5 refused 'refused ' 'refused x' 'refused 5 ' 'refused 5a' 'refused -5' ' refused 5' 'refused  5' \
        'Refused 5' 'eq refused 5' 'eq  refused 5' 'eq 1 refused' 'eq x refused 5' 'eq 1  refused 5' 'eq 1refused 5' \
        'eq 1 eq 1 refused 5' 'refused 5\x00' '\x00refused 5' "refused $(times 56 1)" "refused $(times 100 1)"; do
        copied "$line\nb\n"
        copied "a\n$line"
    done
    printf 'vars 1 entries 1\n1\neq 1 refused 8\nrefused 5\nx' >"$file"
    run explain
    explained $'vars 1 entries 1\n1\neq 1 refused 8\nrefused 5\nx' 2
    same "the order of the lines" "vars 1 eq full: refused name: x" "$(awk '{ print $1 }' "$out" | xargs)"
    printf 'refused 11' >"$file"
    run explain
    explained "refused 11" 1
    printf 'refused 5\nx\n' >"$file"
    run explain
    explained $'refused 5\nx' 1
    printf 'refused 5\r\nrefused 3\r' >"$file"
    run explain
    explained $'refused 5\r\nrefused 3\r' 2
}

# ---- With sharerun

# What `make run` shows; it uses the first build.
show() {
    local shown
    shown=$(tools/show examples/parish.txt)
    same "the parts of show" "The file examples/parish.txt:|As 16-bit words, the input of sharerun:|sharerun prints:|Goals on" "$(grep '^[^ ]' <<<"$shown" | paste -sd '|')"
    same "the words in show" "$example" "$(sed -n '/^As 16/,/^sharerun/p' <<<"$shown" | grep '^ ' | xargs)"
    same "sharerun's lines in show" "$("$program" input examples/parish.txt | "$sharerun")" "$(sed -n '/^sharerun/,/^$/s/^    //p' <<<"$shown")"
    same "the pairs in show" "$("$program" pairs examples/parish.txt)" "$(sed -n '/^Goals/,$s/^    //p' <<<"$shown")"
    # With more than 16 variables the words of entries stand as 32-bit numbers, between the sizes and the equations.
    printf 'vars 17\n1***************1\n00000000000000011\nX17 = X1\n' >"$file"
    shown=$(tools/show "$file" 2>/dev/null)
    same "the numbers in show" "17 2|65537 131071|65537 98304|1 1 17 1 1" \
        "$(sed -n '/^As 16-bit numbers, with care and value words of 32 bits, the input of sharerun:/,/^$/p' <<<"$shown" | grep '^ ' | sed 's/^ *//; s/  */ /g' | paste -sd '|')"
    same "sharerun's lines in show of 17 variables" "$("$program" input "$file" 2>/dev/null | "$sharerun")" "$(sed -n '/^sharerun/,/^$/s/^    //p' <<<"$shown")"
    # Of a file that sharerun does not read the words are those of both sides, and the tables are those of sharetext.
    shown=$(tools/show examples/records.txt 2>/dev/null)
    same "the words in show of two terms" "$("$program" input --unify examples/records.txt 2>/dev/null | words | xargs)" \
        "$(sed -n '/^As 16-bit words, the input of sharing_unify_run:/,/^$/p' <<<"$shown" | grep '^ ' | xargs)"
    same "the tables in show of two terms" "$("$program" explain examples/records.txt 2>/dev/null || true; "$program" tables examples/records.txt 2>/dev/null)" \
        "$(sed -n '/^sharetext explain and/,/^$/s/^    //p' <<<"$shown")"
    same "the pairs in show of two terms" 6 "$(sed -n '/^Goals/,$p' <<<"$shown" | grep -c ' run side by side ')"
    printf 'vars 3\n10\n' >"$file"
    status=0
    tools/show "$file" >"$out" 2>"$err" || status=$?
    ended "show of a wrong file" 2 "" "$(mistake "$file" 2 3 1 "$early" "0, 1 or * for X3, position 3 of 3")"
    full_file >"$file"
    status=0
    tools/show "$file" >"$out" 2>"$err" || status=$?
    same "show of a full file" "2 $file:19:2: Equation 2 is full: it needs a table of more than 256 entries." "$status $(head -n 1 "$err")"
}

whole_run() {
    same "the example through sharerun" "vars 3 entries 3
100
01*
0*1
eq 1 entries 2
001
11*
eq 2 entries 1
110
end 0" "$("$program" input examples/parish.txt | "$sharerun" | "$program" explain && echo end $?)"
    full_file >"$file"
    status=0
    "$program" input "$file" | "$sharerun" | "$program" explain >"$out" || status=$?
    same "status of a full run" 1 "$status"
    same "the end of a full run" "eq 2 refused 8 full:" "$(tail -n 2 "$out" | sed 's/^ *\(full:\).*/\1/' | xargs)"
}
