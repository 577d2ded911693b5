# shellcheck shell=bash disable=SC2154 # the names are those of tests/tools
# The words of good files.

# ---- The words of a file

example="3 3 7 3 5 1 2 4 2 3 1 3 2 1 32785 2 32800"

example_words() {
    cp examples/parish.txt "$file"
    gives "the example" <<<"$example"
    same "message of the example" "" "$(<"$err")"
    run input -
    same "words from standard input" "$example" "$(words <"$out" | xargs)"
    sed 's/$/\r/' examples/parish.txt >"$file"
    gives "the example with CRLF" <<<"$example"
    { printf '\xef\xbb\xbf' && cat examples/parish.txt; } >"$file"
    gives "the example with a byte order mark" <<<"$example"
    writes '\xef\xbb\xbfvars 3\n100\n01*\n0*1\nX1 = f(X2)\nX3 = a' "$example"
    writes 'vars 3\r\n100\r\n01*\r\n0*1\r\nX1= f(X2).\r\nX3= a.\r' "$example"
    writes '#\n\t vars \t 3 # 4\n\n 100# 1\n01* \n\t0*1\t% 1\n X1\t= f ( X2 ) . % b\n\nX3 =a #\n % \x00\xff\n' "$example"
    writes 'vars Baptism Wedding Parish\nfree Baptism\n01*\n0*1\nBaptism = after(Wedding).\nParish = ashby.' "$example"
    # The numbers of symbols do not depend on their names, but on where they first stand.
    writes "vars A,B , C\n100\n01*\n0*1\nA = 'Ashby St Mary'(B)\nC = 1870" "$example"
}

vars_words() {
    writes 'vars 1' "1 0 0 0"
    writes 'vars 016\n***************1\n****************\n0000000000000000\n' "16 3 32768 0 65535 32768 0 0 0 0"
    writes 'vars A B C D E F G H I J K L M N O P\nP = A' "16 0 1 1 16 1 1"
    writes "vars $(lines 32 'V&' | xargs)\nV32 = V17" "32 0 1 1 32 1 17"
    writes 'vars _A Ab9_ _1\n_1 = _A' "3 0 1 1 3 1 1"
    # X2 is a name like any other.
    writes 'vars X2 X1\nX1 = X2' "2 0 1 1 2 1 1"
}

# More than 16 variables: the words of entries have 32 bits, all else 16.
wide_words() {
    local l last all alone cares
    for l in 17 28 31 32; do
        last=$((1 << (l - 1))) all=$(((1 << l) - 1)) alone=() cares=()
        while ((${#alone[@]} < l)); do alone+=($((1 << ${#alone[@]}))) cares+=("$all"); done
        writes "vars $l" "$l 0 0 0"
        writes "vars $l\n$(times $((l - 1)) '*')1\n$(times $l '*')\n$(times $l 0)\n0$(times $((l - 1)) '*')" \
            "$l 4 $(wide "$last" 0 "$all" 1)$(wide "$last" 0 0 0)0 0"
        writes "vars $l\nfree X$l, X9\nX$l = f(X9)\nX1 = X$l" \
            "$l 2 $(wide "$all" "$all")$(wide "$last" 256)2 3 $l 1 2 1 $(head_of 1 1) 9 $l"
        writes "vars $l\nfree" "$l $l $(wide "${cares[@]}" "${alone[@]}")0 0"
        sharerun_ends "$(times $((l - 1)) 0)1"
    done
    # With 16 named variables a _ is the seventeenth, and all words grow wider.
    writes 'vars 16\n***************1\nX1 = f(_)' "17 2 $(wide 98304 131071)$(wide 32768 65536)1 2 1 2 $(head_of 1 1) 17"
    writes "vars 29\nX1 = f(_, _, _)" "32 3 $(wide 4294967295 4294967295 4294967295)\
$(wide 536870912 1073741824 2147483648)1 4 1 4 $(head_of 1 3) 30 31 32"
}

free_words() {
    writes 'vars 3\nfree' "3 3 7 7 7 1 2 4 0 0"
    writes 'vars 3\nfree X3, X1' "3 2 7 7 4 1 0 0"
    writes 'vars 3\nfree X3 X1 % X2' "3 2 7 7 4 1 0 0"
    writes 'vars A B C\nfree B\n1**\nfree C # A\n*11' "3 4 7 1 7 6 2 1 4 6 0 0"
    writes 'vars 3\nfree X1\nfree X1' "3 2 7 7 1 1 0 0"
    writes 'vars 1\n1\n1\n' "1 2 1 1 1 1 0 0"
    # The words vars and free are symbols too.
    writes 'vars 2\nfree = X1\nvars(X2) = X1\nX2 = free(vars)' \
        "2 0 3 5 1 1 2 1 2 2 $((0x8010)) $((0x8021)) 2 $((0x8011)) $((0x8020))"
}

# The file with one equation, X1 = f(f(... a ...)), of $1 times f, and its words.
nested() {
    { printf 'vars 3\nX1 = ' && times "$1" 'f(' && printf a && times "$1" ')'; } >"$file"
}
nested_words() {
    echo 3 0 1 $(($1 + 1)) 1 $(($1 + 1))
    lines "$1" $((0x8011))
    echo $((0x8020))
}

# A head of symbol $1 and arity $2.
head_of() { echo $((0x8000 + 16 * $1 + $2)); }

term_words() {
    writes 'vars 3\nX1 = X2\nX2 = X1' "3 0 2 2 1 2 1 1 2 1"
    # A symbol is known by its whole name, whatever its arity; the numbers are in order of first appearance.
    writes 'vars 3\nX2 = g(f, g(X1, a), X3)\nX1 = f' \
        "3 0 2 7 2 1 6 1 $(head_of 1 3) $(head_of 2 0) $(head_of 1 2) 1 $(head_of 3 0) 3 $(head_of 2 0)"
    writes 'vars 3\nX1 = a(aBz, aB_9, a, aBy)' \
        "3 0 1 5 1 5 $(head_of 1 4) $(head_of 2 0) $(head_of 3 0) $(head_of 1 0) $(head_of 4 0)"
    writes 'vars 3\nX1 = f ( g\t( a ) , X2 ) ' "3 0 1 4 1 4 $(head_of 1 2) $(head_of 2 1) $(head_of 3 0) 2"
    writes "vars 3\nX2 = f($(lines 15 X1 | paste -sd,))" "3 0 1 16 2 16 $(head_of 1 15) $(lines 15 1 | xargs)"
    # Either side may be the variable.
    writes 'vars 3\nf(X1, X2) = X3.\na = X1\n100 = X2\n[] = X1' \
        "3 0 4 6 3 1 2 1 3 1 1 1 $(head_of 1 2) 1 2 $(head_of 2 0) $(head_of 3 0) $(head_of 4 0)"
    # A full stop ends an equation, and a number with digits after its point has none.
    writes 'vars 3\nX1 = 3.\nX1 = 3.5.\nX1 = 3 .' "3 0 3 3 1 1 1 1 1 1 $(head_of 1 0) $(head_of 2 0) $(head_of 1 0)"
}

# Atoms with and without quotes, numbers, lists and _.
prolog_words() {
    writes "vars 3\nX1 = f('f', 'it''s', 'it\\\\'s', '', 'a%b#c', 'É', '\\\\\\\\')" "3 0 1 8 1 8 $(head_of 1 7) \
$(head_of 1 0) $(head_of 2 0) $(head_of 2 0) $(head_of 3 0) $(head_of 4 0) $(head_of 5 0) $(head_of 6 0)"
    # A number is not the atom of the same text.
    writes "vars 3\nX1 = f(1, -1, 2.5, 1.0e6, -2.5E-3, '1', 1)" "3 0 1 8 1 8 $(head_of 1 7) $(head_of 2 0) $(head_of 3 0) \
$(head_of 4 0) $(head_of 5 0) $(head_of 6 0) $(head_of 7 0) $(head_of 2 0)"
    writes "vars 3\nX1 = [a, X2 | X3]\nX2 = '.'([], '[]')" "3 0 2 8 1 2 5 3 \
$(head_of 1 2) $(head_of 2 0) $(head_of 1 2) 2 3 $(head_of 1 2) $(head_of 3 0) $(head_of 3 0)"
    writes 'vars 2\nX2 = [ X1 , [ ] ]' "2 0 1 5 2 5 $(head_of 1 2) 1 $(head_of 1 2) $(head_of 2 0) $(head_of 2 0)"
    # Each _ is one more position and one more entry; the entries of the file have 0 there.
    writes 'vars 3\n01*\nX1 = f(_, X2, _)' "5 3 27 31 31 2 8 16 1 4 1 4 $(head_of 1 3) 4 2 5"
    writes 'vars 1\n_ = _\nX1 = a\nf(_) = _' "5 4 31 31 31 31 2 4 8 16 3 4 2 1 5 1 1 2 3 $(head_of 1 0) $(head_of 2 1) 4"
    writes "vars 13\nX1 = f(_, _, _)" "16 3 65535 65535 65535 8192 16384 32768 1 4 1 4 $(head_of 1 3) 14 15 16"
}

# The most that the written form can hold. A small stack shows that no depth of terms needs a larger one.
most_words() {
    nested 1023
    gives "1024 tokens" < <(nested_words 1023)
    sharerun_ends "eq 1 entries 0"
    same "1024 tokens in a small stack" 0 "$(ulimit -s 512 && "$program" pairs "$file" >"$out" 2>&1; echo $?)"
    { echo vars 3 && lines 256 '10*'; } >"$file"
    gives "256 entries" < <(echo 3 256 && lines 256 3 && lines 256 1 && echo 0 0)
    { echo vars 3 && lines 64 'X1 = X2'; } >"$file"
    gives "64 equations" < <(echo 3 0 64 64 && lines 128 1 && lines 64 2)
    # The right side of f(..) = X1 is no token: 1024 of them fit there too.
    { printf 'vars 3\n' && times 1023 'f(' && printf a && times 1023 ')' && printf ' = X1'; } >"$file"
    gives "1024 tokens on the left" < <(nested_words 1023)
    # All the limits together: sharerun reads that.
    { echo vars 3 && lines 256 '10*' && lines 63 'X1 = f(X2)' && printf 'X1 = ' && times 897 'f(' && printf a && times 897 ')'; } >"$file"
    run input "$file"
    same "bytes at the limits" 3336 "$(wc -c <"$out")"
    same "sharerun at the limits" "eq 64 entries" "$("$sharerun" <"$out" | grep '^eq' | tail -n 1 | cut -d ' ' -f 1-3)"
    # The same with 32 variables: more bytes than the 4096 that were enough for 16.
    sed -i "s/^vars 3/vars 32/; s/^10\*/10$(times 29 0)*/" "$file"
    run input "$file"
    same "bytes at the limits of 32 variables" 4360 "$(wc -c <"$out")"
    same "sharerun at the limits of 32 variables" "eq 64 entries" "$("$sharerun" <"$out" | grep '^eq' | tail -n 1 | cut -d ' ' -f 1-3)"
    # sharerun reads 8192 bytes, here with an l of 0; one byte more is torn before anything else is looked at.
    same "8192 bytes to sharerun" "refused 2" "$(head -c 8192 /dev/zero | "$sharerun")"
    same "8193 bytes to sharerun" "refused 1" "$(head -c 8193 /dev/zero | "$sharerun")"
}
