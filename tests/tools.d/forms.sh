# shellcheck shell=bash disable=SC2154 # the names are those of tests/tools
# The forms of tables, plain and packed, and readable files of forms.

# ---- Forms of a file

# With the options $3, if any, the file gives a form of the bytes $1 and a packed form of the bytes $2, as numbers.
has_form() {
    # shellcheck disable=SC2086 # the words are the arguments
    run form "$file" ${3-}
    same "the form of $file ${3-}" "0 $1" "$status $(numbers <"$out")"
    # shellcheck disable=SC2086
    run form ${3-} "$file" --packed
    same "the packed form of $file ${3-}" "0 $2" "$status $(numbers <"$out")"
}

written_forms() {
    cp examples/parish.txt "$file"
    has_form "3 0 3 0 7 0 3 0 5 0 1 0 2 0 4 0" "3 0 3 0 1 21 15" "--after 0"
    has_form "3 0 2 0 7 0 3 0 4 0 3 0" "3 0 2 0 9 22" "--after 1"
    has_form "3 0 1 0 7 0 3 0" "3 0 1 0 4" "--after 2"
    has_form "3 0 1 0 7 0 3 0" "3 0 1 0 4"
    same "message of form" "" "$(<"$err")"
    run form - --packed
    same "the packed form of standard input" "3 0 1 0 4" "$(numbers <"$out")"
    asked 2 "" "sharetext: --after 3 is no point of $file.
    Expected: a number from 0 to 2, how many of the equations have been applied." form "$file" --after 3 --packed
    # Reading drops what is all zero or covered, and widens the rest.
    printf 'vars 3\n100\n000\n1*0\n110\n' >"$file"
    has_form "3 0 1 0 5 0 1 0" "3 0 1 0 7"
    printf 'vars 2\n10\n11\n' >"$file"
    has_form "2 0 1 0 1 0 1 0" "2 0 1 0 7"
    printf 'vars 6\n00000*\n*****1\n' >"$file"
    has_form "6 0 2 0 31 0 32 0 0 0 32 0" "6 0 2 0 0 2 242 1"
    printf 'vars 16\n****************\n' >"$file"
    has_form "16 0 1 0 0 0 0 0" "16 0 1 0 242 242 242 2"
    # From 17 variables on a word has four bytes.
    printf 'vars 17\n*****************\n' >"$file"
    has_form "17 0 1 0 0 0 0 0 0 0 0 0" "17 0 1 0 242 242 242 8"
    printf 'vars 17\n****************1\n1***************0\n' >"$file"
    has_form "17 0 2 0 0 0 1 0 1 0 0 0 0 0 1 0 1 0 0 0" "17 0 2 0 242 242 242 5 241 242 242 8"
    printf 'vars 32\n%s1\n' "$(times 31 0)" >"$file"
    has_form "32 0 1 0 255 255 255 255 0 0 0 128" "32 0 1 0 0 0 0 0 0 0 3"
    printf 'vars 32\n1%s0\n*%s1\n' "$(times 30 0)" "$(times 30 '*')" >"$file"
    has_form "32 0 2 0 255 255 255 255 0 0 0 128 1 0 0 0 0 0 0 128" "32 0 2 0 1 0 0 0 0 0 0 242 242 242 242 242 242 5" "--after 0"
    # A _ after 16 variables makes the words wider.
    printf 'vars 16\n***************1\nX1 = _\n' >"$file"
    has_form "17 0 2 0 0 128 1 0 255 255 1 0 0 128 0 0 0 0 1 0" "17 0 2 0 242 242 242 1 0 0 0 3" "--after 0"
    # Each _ has a position after the others.
    printf 'vars 2\n**\n_ = X1\n' >"$file"
    has_form "3 0 2 0 4 0 3 0 0 0 0 0" "3 0 2 0 8 18" "--after 0"
    # A variable in no group is told as with every command.
    printf 'vars 2\n1*\nX1 = a\nX2 = X1\n' >"$file"
    has_form "2 0 0 0" "2 0 0 0"
    printf 'vars A B\n10\n' >"$file"
    has_form "2 0 1 0 3 0 1 0" "2 0 1 0 1"
    same "message of form" "$file: B is in no group: it counts as known" "$(<"$err")"
}

# After a full equation there is no form; before it there is.
full_forms() {
    full_file >"$file"
    for option in "" --packed; do
        # shellcheck disable=SC2086
        run form "$file" $option
        same "form $option of a full file" "2 0 $file:19:2: Equation 2 is full: it needs a table of more than 256 entries." \
            "$status $(wc -c <"$out") $(head -n 1 "$err")"
    done
    run form "$file" --packed --after 1
    same "the packed form before a full equation" "0 64 16 0 15 0" "$status $(wc -c <"$out") $(head -c 4 "$out" | numbers)"
}

# ---- Files of a form

# The bytes $1, as numbers, with the options $3, if any, give the readable file $2, with escapes.
reads_as() {
    echo "$1" >"$scratch/numbers"
    bytes "$scratch/numbers" >"$file"
    for name in "$file" -; do
        # shellcheck disable=SC2086
        run text "$name" ${3-}
        ended "text $name ${3-} of $1" 0 "$(printf '%b' "$2")" ""
    done
}

read_forms() {
    reads_as "3 0 3 0 7 0 3 0 5 0 1 0 2 0 4 0" 'vars 3\n100\n01*\n0*1'
    reads_as "3 0 3 0 1 21 15" 'vars 3\n100\n01*\n0*1' --packed
    reads_as "1 0 0 0" 'vars 1'
    reads_as "16 0 0 0" 'vars 16' --packed
    reads_as "16 0 2 0 242 242 242 2 0 0 0 1" 'vars 16\n****************' --packed
    reads_as "16 0 2 0 242 242 242 1 0 0 0 0" 'vars 16\n***************1' --packed
    reads_as "3 0 4 0 1 0 7 4" 'vars 3\n1*0' --packed
    reads_as "17 0 0 0" 'vars 17'
    reads_as "17 0 1 0 1 0 1 0 0 0 1 0" "vars 17\n0$(times 15 '*')1"
    reads_as "32 0 1 0 1 0 0 128 0 0 0 128" "vars 32\n0$(times 30 '*')1"
    reads_as "32 0 1 0 240 242 242 242 242 242 5" "vars 32\n0$(times 30 '*')1" --packed
    reads_as "31 0 1 0 242 242 242 242 242 242 1" "vars 31\n$(times 30 '*')1" --packed
}

# The bytes $1, as numbers, with the options $3, if any, are refused with the number and words $2.
refuses() {
    local due other="a form that is not packed is read without --packed"
    due="a packed form, as \`sharetext form FILE --packed\` writes it; $other"
    [[ -n ${3-} ]] || due="a form, as \`sharetext form FILE\` writes it; a packed form is read with --packed"
    echo "$1" >"$scratch/numbers"
    bytes "$scratch/numbers" >"$file"
    # shellcheck disable=SC2086
    run text "$file" ${3-}
    ended "text ${3-} of $1" 2 "" "$file: refused $2.
    Expected: $due."
}

refused_forms() {
    local torn="1, torn: the length is not what the sizes give" width="2, width: l is not 1 to 32"
    local entries="3, entries: more than 256 entries"
    local digit="12, digit: a packed byte of 243 or more, or an unused digit that is not 0"
    for option in "" --packed; do
        refuses "" "$torn" $option
        refuses "33 0 1" "$torn" $option
        refuses "0 0 1 1 255" "$width" $option
        refuses "33 0 1 1 255" "$width" $option
        refuses "16 0 1 1 255" "$entries" $option
        refuses "32 0 1 1 255" "$entries" $option
        refuses "2 0 0 0 255" "$torn" $option
    done
    refuses "2 0 1 0 4 0 0" "$torn"
    refuses "2 0 1 0 4 0 0 0" "4, stray: a bit above l, or a value without care"
    refuses "6 0 1 0 255" "$torn" --packed
    refuses "6 0 1 0 255 0 0" "$torn" --packed
    refuses "5 0 2 0 242 243" "$digit" --packed
    refuses "6 0 1 0 255 0" "$digit" --packed
    refuses "4 0 2 0 81 0" "$digit" --packed
    # Words of the other width, cut, and with a bit that cannot be.
    refuses "17 0 1 0 0 0 0 0" "$torn"
    refuses "16 0 1 0 0 0 0 0 0 0 0 0" "$torn"
    refuses "32 0 1 0 1 0 0 128 1 0 0" "$torn"
    refuses "32 0 1 0 1 0 0 128 1 0 0 128 0" "$torn"
    refuses "17 0 1 0 0 0 2 0 0 0 0 0" "4, stray: a bit above l, or a value without care"
    refuses "31 0 1 0 0 0 0 128 0 0 0 0" "4, stray: a bit above l, or a value without care"
    refuses "32 0 1 0 255 255 255 127 0 0 0 128" "4, stray: a bit above l, or a value without care"
    refuses "32 0 1 0 0 0 0 0 0 0 9" "$digit" --packed
    refuses "32 0 1 0 0 0 0 0 0 0" "$torn" --packed
    # Of a kind that is not asked for.
    refuses "3 0 3 0 1 21 15" "$torn"
    refuses "3 0 3 0 7 0 3 0 5 0 1 0 2 0 4 0" "$torn" --packed
    asked 2 "" "$scratch/none: The file cannot be read: No such file or directory." text "$scratch/none"
    asked 2 "" "$scratch: The file cannot be read: Is a directory." text "$scratch" --packed
}

# The file $1 has the form in the file $2, with the option $3, if any.
form_is() {
    # shellcheck disable=SC2086
    same "the form ${3-} of $1" "" "$("$program" form "$1" ${3-} 2>"$scratch/ignored" | cmp - "$2" 2>&1)"
}

# A form's file has the same form, plain and packed; the other commands take it.
there_and_back() {
    local form=$scratch/form packed=$scratch/packed text=$scratch/text
    for name in examples/parish.txt examples/marriage.txt examples/godparents.txt tests/tools.d/cases/*/register.txt; do
        "$program" form "$name" >"$form" 2>"$scratch/ignored"
        "$program" form "$name" --packed >"$packed" 2>"$scratch/ignored"
        "$program" text "$form" >"$text"
        form_is "$text" "$form"
        form_is "$text" "$packed" --packed
        same "the packed form of $name as text" "" "$("$program" text "$packed" --packed | cmp - "$text" 2>&1)"
        run tables "$text"
        same "the table of the text of $name" "0 $(tail -n +2 "$text" | xargs)" \
            "$status $(sed -n 's/^    \([01*]*\)  .*/\1/p' "$out" | xargs)"
    done
}
