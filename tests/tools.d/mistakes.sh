# shellcheck shell=bash disable=SC2154 # the names are those of tests/tools
# Each mistake in a file, with its place and what is expected there.

# ---- Mistakes

variables="the number of variables, 1 to 32, or their names, each a capital letter or an underscore and then letters, digits and underscores"
further="a further variable, with a capital letter or an underscore first"
first_line="a line such as: vars 3, or: vars Baptism Wedding Parish"
item="an entry of 0, 1 and *, the word free, or an equation such as X1 = f(X2)"
stop="the end of the line, after a full stop or without one: one equation a line"
term="a term, in the same line: a variable, a symbol such as a or f(X), a quoted atom, a number or a list"
equals="'=', as in X1 = f(X2) or X1 = -1"
operators="Operators are not supported: write a symbol with arguments, such as plus(X1, X2)"
early="The line ends too early."
symbols="(a symbol begins with a small letter or stands in quotes)"
atom="a quoted atom such as 'Ashby St Mary', with a quote in it as '' or \\' and a backslash as \\\\"

wrong_vars() {
    wrong '' 1:1:1 "The file ends without its variables." "$first_line"
    wrong '# a\n\n  # b\n' 3:6:1 "The file ends without its variables." "$first_line"
    wrong '\n100\nvars 3\n' 2:1:3 "The file does not begin with its variables." "$first_line"
    wrong ' vars3\n' 1:2:5 "The file does not begin with its variables." "$first_line"
    wrong 'VARS 3' 1:1:4 "The file does not begin with its variables." "$first_line"
    wrong 'vars = 3' 1:1:4 "The file does not begin with its variables." "$first_line"
    wrong 'vars' 1:5:1 "$early" "$variables"
    wrong '\n\nvars # 3\n' 3:6:1 "The line ends too early: a comment begins here." "$variables"
    wrong 'vars x3' 1:6:2 "'x3' cannot stand here." "$variables"
    wrong 'vars -1' 1:6:1 "'-' cannot stand here." "$variables"
    wrong 'vars , A' 1:6:1 "',' cannot stand here." "$variables"
    wrong 'vars 0' 1:6:1 "0 is not a number of variables." "$variables"
    wrong 'vars 3x' 1:6:2 "3x is not a number of variables." "$variables"
    wrong 'vars 33' 1:6:2 "33 variables are too many." "$variables"
    wrong 'vars 18446744073709551619\n' 1:6:20 "18446744073709551619 variables are too many." "$variables"
    wrong 'vars 3 4' 1:8:1 "'4' cannot stand here." "the end of the line (a comment begins with % or #)"
    wrong 'vars 3 X4' 1:8:2 "'X4' cannot stand here." "the end of the line (a comment begins with % or #)"
    wrong "vars $(lines 32 'V&' | xargs) Qu R" 1:125:2 "Qu is one variable too many." "at most 32 variables"
    wrong 'vars Ab B Ab' 1:11:2 "Ab stands twice in this line." "each variable once"
    wrong 'vars A _' 1:8:1 "A bare _ is not a name." "$variables"
    wrong 'vars A, B,' 1:11:1 "$early" "$further"
    wrong 'vars A,,B' 1:8:1 "',' cannot stand here." "$further"
    wrong 'vars A b' 1:8:1 "'b' cannot stand here." "$further, or the end of the line"
    wrong 'vars A 3' 1:8:1 "'3' cannot stand here." "$further, or the end of the line"
    wrong 'vars A B.' 1:9:1 "'.' cannot stand here." "$further, or the end of the line"
    wrong 'vars 3\n vars 3' 2:2:4 "There is a second line vars." "one such line, and line 1 is one"
    wrong '%\nvars 3\n100\nvars' 4:1:4 "There is a second line vars." "one such line, and line 2 is one"
}

wrong_entries() {
    local whole="the end of the line: an entry has 3 positions, one for each variable of line 1 (a comment begins with % or #)"
    wrong 'vars Ab Cd\nO1\n' 2:1:1 "The letter 'O' cannot stand here." "0, 1 or * for Ab, position 1 of 2"
    wrong 'vars Ab Cd\n1o\n' 2:2:1 "The letter 'o' cannot stand here." "0, 1 or * for Cd, position 2 of 2"
    wrong 'vars 3\n100\n\t 0l*\n' 3:4:1 "The letter 'l' cannot stand here." "0, 1 or * for X2, position 2 of 3"
    wrong 'vars 3\nl0I\n' 2:1:1 "The letter 'l' cannot stand here." "0, 1 or * for X1, position 1 of 3"
    wrong 'vars 3\n10x' 2:3:1 "The letter 'x' cannot stand here." "0, 1 or * for X3, position 3 of 3"
    wrong 'vars 3\n200' 2:1:1 "'2' cannot stand here." "0, 1 or * for X1, position 1 of 3"
    wrong 'vars 3\n1-0' 2:2:1 "'-' cannot stand here." "0, 1 or * for X2, position 2 of 3"
    wrong 'vars 3\n1 0 0' 2:2:1 "' ' cannot stand here." "0, 1 or * for X2, position 2 of 3"
    wrong 'vars 3\n100\n10\n' 3:3:1 "$early" "0, 1 or * for X3, position 3 of 3"
    wrong 'vars 3\n10  % 0\n' 2:3:1 "$early" "0, 1 or * for X3, position 3 of 3"
    wrong 'vars 3\n10#0\n' 2:3:1 "The line ends too early: a comment begins here." "0, 1 or * for X3, position 3 of 3"
    wrong 'vars 3\n1000\n' 2:4:1 "'0' cannot stand here." "$whole"
    wrong 'vars 3\n100*\r\n' 2:4:1 "'*' cannot stand here." "$whole"
    wrong 'vars 3\n100 X1 alone' 2:5:2 "'X1' cannot stand here." "$whole"
    wrong 'vars 3\n100.' 2:4:1 "'.' cannot stand here." "$whole"
    wrong 'vars 1\n11' 2:2:1 "'1' cannot stand here." \
        "the end of the line: an entry has 1 position, one for each variable of line 1 (a comment begins with % or #)"
    wrong 'vars 3\nX1 = a\n100' 3:1:3 "There is an entry after an equation." \
        "an equation; entries and free stand before the first one"
    { echo vars 3 && head -c 100000 /dev/zero | tr "\0" 1; } >"$file"
    fails "a long line" 2:4:1 "'1' cannot stand here." "$whole"
}

wrong_free() {
    local all="variables of the line vars, or the end of the line for all of them"
    wrong 'vars 3\nfree X1, X9' 2:10:2 "X9 is not one of the variables of line 1." "X1, X2 or X3"
    wrong 'vars A\n\nfree B' 3:6:1 "B is not one of the variables of line 1." "A"
    wrong 'vars A B\nfree _' 2:6:1 "_ is not one of the variables of line 1." "A or B"
    wrong 'vars 3\nfree X1 X2, X1' 2:13:2 "X1 stands twice in this line." "each variable once"
    wrong 'vars 3\nfree X1,' 2:9:1 "$early" "$further"
    wrong 'vars 3\nfree , X1' 2:6:1 "',' cannot stand here." "$all"
    wrong 'vars 3\nfree 3' 2:6:1 "'3' cannot stand here." "$all"
    wrong 'vars 3\nfree.' 2:5:1 "'.' cannot stand here." "$all"
    wrong 'vars 3\nfree X1.' 2:8:1 "'.' cannot stand here." "$further, or the end of the line"
    wrong 'vars 3\nX1 = a\nfree X1' 3:1:4 "There is free after an equation." \
        "an equation; entries and free stand before the first one"
}

wrong_equations() {
    wrong 'vars 3\n\n# b\n?- a' 4:1:2 "'?-' cannot stand here." "$item"
    wrong 'vars 3\n= X1' 2:1:1 "'=' cannot stand here." "$item"
    wrong 'vars 3\nX1' 2:3:1 "$early" "$equals"
    wrong 'vars 3\nX1 % = a' 2:4:1 "The line ends too early: a comment begins here." "$equals"
    wrong 'vars 3\nX1 a' 2:4:1 "'a' cannot stand here." "$equals. $operators"
    wrong 'vars 3\nX1(a) = X2' 2:3:1 "'(' cannot stand here." "$equals"
    wrong 'vars 3\nX1 =\nX2 = a' 2:5:1 "$early" "$term"
    wrong 'vars 3\nX1 = f(' 2:8:1 "$early" "$term"
    wrong 'vars 3\nX1 = f()' 2:8:1 "')' cannot stand here." "$term"
    wrong 'vars 3\nX1 = f(X2,)' 2:11:1 "')' cannot stand here." "$term"
    wrong 'vars 3\nX1 = (X2)' 2:6:1 "'(' cannot stand here." "$term"
    wrong 'vars 3\nX1 = {}' 2:6:1 "'{' cannot stand here." "$term"
    wrong 'vars 3\nX1 = "ab"' 2:6:1 "A text in double quotes is not supported." "a quoted atom, such as 'Ashby St Mary'"
    wrong 'vars 3\nX1 = f(X2' 2:10:1 "$early" "a comma or ')', in the same line"
    wrong 'vars 3\nX1 = f(g(X2)\n)' 2:13:1 "$early" "a comma or ')', in the same line"
    wrong 'vars 3\nX1 = f(X2;X3)' 2:10:1 "';' cannot stand here." "a comma or ')', in the same line"
    wrong 'vars 3\nX1 = f(X2(X3))' 2:10:1 "'(' cannot stand here." "a comma or ')', in the same line"
    wrong 'vars 3\nX1 = f(a]' 2:9:1 "']' cannot stand here." "a comma or ')', in the same line"
    wrong 'vars 3\nX1 = [a, b' 2:11:1 "$early" "a comma, '|' or ']', in the same line"
    wrong 'vars 3\nX1 = [a, b)' 2:11:1 "')' cannot stand here." "a comma, '|' or ']', in the same line"
    wrong 'vars 3\nX1 = [a,]' 2:9:1 "']' cannot stand here." "$term"
    wrong 'vars 3\nX1 = [|a]' 2:7:1 "'|' cannot stand here." "$term"
    wrong 'vars 3\nX1 = [a|b, c]' 2:10:1 "',' cannot stand here." "']', in the same line"
    wrong 'vars 3\nX1 = f(X2))' 2:11:1 "')' cannot stand here." "$stop"
    wrong 'vars 3\nX1 = X2 X3' 2:9:2 "'X3' cannot stand here." "$stop"
    wrong 'vars 3\nX1 = a. X2 = b.' 2:9:2 "'X2' cannot stand here." "$stop"
    wrong 'vars 3\nX1 = a. b' 2:9:1 "'b' cannot stand here." "$stop"
    wrong 'vars 3\nX1 = a, X2 = b' 2:7:1 "',' cannot stand here." "$stop"
}

wrong_names() {
    wrong 'vars 3\nX9 = a' 2:1:2 "X9 is not one of the variables of line 1." "X1, X2 or X3 $symbols"
    wrong '\nvars 3\nX1 = f(a, X4)' 3:11:2 "X4 is not one of the variables of line 2." "X1, X2 or X3 $symbols"
    wrong 'vars 3\nX01 = a' 2:1:3 "X01 is not one of the variables of line 1." "X1, X2 or X3 $symbols"
    wrong 'vars 3\nX = a' 2:1:1 "X is not one of the variables of line 1." "X1, X2 or X3 $symbols"
    wrong 'vars Baptism Wedding\nWeding = Baptism' 2:1:6 "Weding is not one of the variables of line 1." "Baptism or Wedding $symbols"
    wrong 'vars Baptism Wedding\nBaptism = Ashby' 2:11:5 "Ashby is not one of the variables of line 1." "Baptism or Wedding $symbols"
    wrong 'vars A\nA = X1' 2:5:2 "X1 is not one of the variables of line 1." "A $symbols"
    wrong 'vars A\nf(B) = A' 2:3:1 "B is not one of the variables of line 1." "A $symbols"
    wrong 'vars A\nA = _B' 2:5:2 "_B is not one of the variables of line 1." "A $symbols"
    wrong 'vars A\nf(A) = g(B)' 2:10:1 "B is not one of the variables of line 1." "A $symbols"
}

wrong_operators() {
    wrong 'vars 3\nX1 is X2 + 1' 2:4:2 "'is' cannot stand here." "$equals. $operators"
    wrong 'vars 3\nX1 == X2' 2:4:2 "The operator '==' is not supported." "$equals. $operators"
    wrong 'vars 3\nX1 =.. X2' 2:4:3 "The operator '=..' is not supported." "$equals. $operators"
    wrong 'vars 3\nX1 \\= X2' 2:4:2 "The operator '\\=' is not supported." "$equals. $operators"
    wrong 'vars 3\nX1 =-1' 2:4:2 "The operator '=-' is not supported." "$equals. $operators"
    wrong 'vars 3\nX1 = X2+1' 2:8:1 "The operator '+' is not supported." "$stop. $operators"
    wrong 'vars 3\nX1 = a:b' 2:7:1 "The operator ':' is not supported." "$stop. $operators"
    wrong 'vars 3\nX1 = X2 = X3' 2:9:1 "The operator '=' is not supported." "$stop. $operators"
    wrong 'vars 3\nX1 = a mod b' 2:8:3 "'mod' cannot stand here." "$stop. $operators"
    wrong 'vars 3\nX1 = a..' 2:7:2 "The operator '..' is not supported." "$stop. $operators"
    wrong 'vars 3\nX1 = f(a-b)' 2:9:1 "The operator '-' is not supported." "a comma or ')', in the same line. $operators"
    wrong 'vars 3\nX1 = -X2' 2:6:1 "The operator '-' is not supported." "$term. $operators"
    wrong 'vars 3\nX1 = - 1' 2:6:1 "The operator '-' is not supported." "$term. $operators"
}

wrong_constants() {
    local number="the end of the number: one such as 1870, -3, 2.5 or 1.0e6"
    wrong "vars 3\nX1 = f('ab, c)" 2:8:7 "The quoted atom does not end." "$atom"
    wrong "vars 3\nX1 = 'it''" 2:6:5 "The quoted atom does not end." "$atom"
    wrong "vars 3\nX1 = 'a\\\\nb'" 2:8:2 "This escape is not known." "$atom"
    wrong "vars 3\nX1 = 'a\\\\" 2:8:1 "This escape is not known." "$atom"
    wrong "vars 3\nX1\t= 'a\tb'" 2:8:1 "The byte 9 cannot stand here." "a character of ASCII or UTF-8, and no tab"
    wrong 'vars 3\nX1 = 0x1F' 2:7:3 "'x1F' cannot stand here." "$number"
    wrong "vars 3\nX1 = 0'a" 2:7:1 "''' cannot stand here." "$number"
    wrong 'vars 3\nX1 = 1e5' 2:7:2 "'e5' cannot stand here." "$number"
    wrong 'vars 3\nX1 = 1.5e' 2:9:1 "'e' cannot stand here." "$number"
    wrong 'vars 3\nX1 = 1_000' 2:7:4 "'_000' cannot stand here." "$number"
    wrong 'vars 3\nX1 = 3.x' 2:8:1 "'x' cannot stand here." "$stop"
}

# The file, which is $1, is wrong as the text $2 says, exactly.
says() {
    printf '%b' "$1" >"$file"
    run input "$file"
    ended "$1" 2 "" "$file:$2"
}

# Bytes that are no characters, characters of several bytes, and a file of two bytes a character.
wrong_bytes() {
    says 'vars 3\r100\r' "1:7: The byte 13 cannot stand here.
    vars 3?100
          ^
    Expected: the end of the line (a comment begins with % or #)."
    says 'vars 3\nX1 = \x00a' "2:6: The byte 0 cannot stand here.
    X1 = ?a
         ^
    Expected: $term."
    says 'vars 3\n\x1b[1m' "2:1: The byte 27 cannot stand here.
    ?[1m
    ^
    Expected: $item."
    says "vars 3\nX1 = 'ab\xe9c'" "2:9: The byte 233 cannot stand here.
    X1 = 'ab?c'
            ^
    Expected: a character of ASCII or UTF-8, and no tab."
    # Columns are bytes; the mark stands below the character all the same.
    says "vars 3\nX1 = '\xc3\x89g' + 1" "2:12: The operator '+' is not supported.
    X1 = 'Ég' + 1
              ^
    Expected: $stop. $operators."
    says 'vars 3\nX1 = \xc3\x89g' "2:6: 'É' cannot stand here.
    X1 = Ég
         ^
    Expected: $term."
    says 'vars 3\n\xef\xbc\x911*' "2:1: '１' cannot stand here.
    １1*
    ^
    Expected: $item."
    # Ways of writing a character that UTF-8 does not have: too long, half a pair, above the last, cut off.
    for bytes in '\xc0\xaf' '\xe0\x80\xaf' '\xed\xa0\x80' '\xf4\x90\x80\x80' '\xf5' '\xc3' '\xe2\x82' '\x80'; do
        printf "%b" "vars 1\nX1 = '$bytes'" >"$file"
        run input "$file"
        same "status of the bytes $bytes" 2 "$status"
        same "message of the bytes $bytes" "$file:2:7: The byte $((16#${bytes:2:2})) cannot stand here." "$(head -n 1 "$err")"
    done
    says '\xef\xbb\xbfvarz 3' "1:1: The file does not begin with its variables.
    varz 3
    ^^^^
    Expected: $first_line."
    says '\xef\xbbvars 3' "1:1: The file does not begin with its variables.
    ??vars 3
    ^
    Expected: $first_line."
    for mark in '\xff\xfev\x00' '\xfe\xff\x00v'; do
        printf '%b' "$mark" >"$file"
        run pairs "$file"
        same "message of UTF-16" "$file:1:1: The file is in UTF-16.|    Expected: ASCII or UTF-8." "$(sed -n '1p;4p' "$err" | paste -sd '|')"
        same "status of UTF-16" 2 "$status"
    done
}

# Each limit is a mistake at the place where it is passed.
wrong_limits() {
    local most="at most 256, with one for each free variable and for each _; one that another covers can be left out"
    local tokens="at most 1024 in all equations together; a list counts one more for each of its elements and one for its end"
    { echo vars 3 && lines 256 '10*' && echo ' 111'; } >"$file"
    fails "257 entries" 258:2:3 "There are more than 256 entries." "$most"
    { echo vars 3 && lines 255 '10*' && echo 'free X2, X1'; } >"$file"
    fails "255 entries and 2 free" 257:10:2 "There are more than 256 entries." "$most"
    { echo vars 3 && lines 254 '10*' && echo 'free'; } >"$file"
    fails "254 entries and free" 256:1:4 "There are more than 256 entries." "$most"
    { echo vars 3 && lines 255 '10*' && echo 'X1 = f(_, _)'; } >"$file"
    fails "255 entries and two _" 257:11:1 "There are more than 256 entries." "$most"
    { echo vars 3 && lines 64 'X1 = X2' && echo ' X3 = a.'; } >"$file"
    fails "65 equations" 66:2:2 "There are more than 64 equations." "at most 64 equations"
    nested 1024
    fails "1025 tokens" 2:2054:1 "There are more than 1024 variables and symbols in the terms." "$tokens"
    { echo vars 3 && lines 63 'X1 = f(X2)' && echo "X3 = $(times 898 'f(')X2$(times 898 ')')"; } >"$file"
    fails "1025 tokens in 64 equations" 65:1802:2 "There are more than 1024 variables and symbols in the terms." "$tokens"
    { echo vars 3 && lines 62 'X1 = f(X2)' && echo "X3 = $(times 899 'f(')X2$(times 899 ')')" && echo "X1 = X2"; } >"$file"
    fails "1024 tokens and an equation" 65:6:2 "There are more than 1024 variables and symbols in the terms." "$tokens"
    { echo vars 3 && echo "X1 = [$(lines 512 a | paste -sd,)]"; } >"$file"
    fails "a list of 512" 2:1030:1 "There are more than 1024 variables and symbols in the terms." "$tokens"
    { echo vars 3 && echo "X1 = [$(lines 511 a | paste -sd,)]"; } >"$file"
    run input "$file"
    same "status of a list of 511" 0 "$status"
    wrong "vars 3\nX1 = g(f($(lines 16 X1 | paste -sd,)))" 2:55:2 "There are more than 15 arguments of one symbol." "at most 15 arguments"
    wrong 'vars 32\nX1 = f(_)' 2:8:1 "There is no room for this _, a variable of its own." \
        "at most 32 variables, those of line 1 and each _ counted"
    wrong 'vars 30\n_ = _\nX1 = f(a, _)' 3:11:1 "There is no room for this _, a variable of its own." \
        "at most 32 variables, those of line 1 and each _ counted"
}
