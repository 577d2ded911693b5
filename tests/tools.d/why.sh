# shellcheck shell=bash disable=SC2154 # the names are those of tests/tools
# Why goals may not run side by side: by which equation, which group and which entries.

# Of the file, of the goals $1 and $2 with the options $3, if any: they may not run side by side at the point $4; then the text $5.
because() {
    # shellcheck disable=SC2086 # the words are the arguments
    asked 1 "$1 and $2: $no $4 $shared
$5" "" why "$file" "$1" "$2" $3
}

# The same of goals that may run side by side, where the answer's line ends with $5 and $6 is why there is nothing to explain.
nothing() {
    # shellcheck disable=SC2086
    run why "$file" "$1" "$2" $3
    # shellcheck disable=SC2086
    ended "why $1 $2 $3" 0 "$1 and $2: $yes $4$5
There is nothing to explain: $6." "$("$program" apart "$file" "$1" "$2" $3 2>&1 >/dev/null)"
}
neither_group="no group has variables of both"

plain_reasons() {
    local at="after equation 1, Baptism = f(Wedding)"
    cp examples/parish.txt "$file"
    because Baptism Parish "--after 1" "$at" "Equation 1 in line 16, Baptism = f(Wedding), made them share. It joined this group:
    111  Baptism, Wedding, Parish
Before it there was a group with Baptism inside this one, in this entry:
    100  Baptism
and one with Wedding, in this entry:
    01*  Wedding, perhaps with Parish"
    # Any group with Baptism and Wedding will do: the one without Parish has fewer variables.
    because Wedding Baptism "--after 1" "$at" "Equation 1 in line 16, Baptism = f(Wedding), made them share. It joined this group:
    110  Baptism, Wedding
Before it there was a group with Baptism inside this one, in this entry:
    100  Baptism
and one with Wedding, in this entry:
    01*  Wedding, perhaps with Parish"
    asked 1 "$(<"$out")" "" why - Wedding Baptism --after 1
    # After a later equation the same one is the reason; the group is that of its own point.
    because Baptism Wedding "" "after equation 2, Parish = a" "$("$program" why "$file" Baptism Wedding --after 1 | tail -n +2)"
    # Neither goal is in the first two entries alone: the third one adds Z. The variable may be on the right.
    printf 'vars X Y Z\nfree\nf(Y, Z) = X\n' >"$file"
    because Y Z "" "after equation 1, f(Y, Z) = X" "Equation 1 in line 3, f(Y, Z) = X, made them share. It joined this group:
    111  X, Y, Z
Before it there was a group with X inside this one, in this entry:
    100  X
and one with Y, in this entry:
    010  Y
and for the rest of it:
    001  Z"
    because X,Y Y,Z "" "after equation 1, f(Y, Z) = X" "Both goals have Y: what is not known in it, they share.
They shared from the start already, and share now by equation 1 in line 3, f(Y, Z) = X. It joined this group:
    110  X, Y
Before it there was a group with X inside this one, in this entry:
    100  X
and one with Y, in this entry:
    010  Y"
    # An entry that reaches outside of the group is passed over; one entry may be that of both sides.
    printf 'vars 4\n1001\n11*0\n0010\nX1 = f(X2, X3)\n' >"$file"
    because X1 X3 "" "after equation 1, X1 = f(X2, X3)" "They shared from the start already, and share now by equation 1 in line 5, X1 = f(X2, X3). It joined this group:
    1110  X1, X2, X3
Before it there was a group with X1 inside this one, and one with X2, X3, in this entry:
    11*0  X1, X2, perhaps with X3"
    because X3 X4 "" "after equation 1, X1 = f(X2, X3)" "Equation 1 in line 5, X1 = f(X2, X3), made them share. It joined this group:
    1011  X1, X3, X4
Before it there was a group with X1 inside this one, in this entry:
    1001  X1, X4
and one with X3, in this entry:
    0010  X3"
}

# Goals that share, then do not, and then share again: the last equation that made them share is told.
shared_again() {
    printf 'vars Groom GroomName Day Match Bride BrideName\nfree\nGroom = person(GroomName, Day)\nBride = person(BrideName, Day)
Day = 1841\nMatch = match(Groom, Bride)\n' >"$file"
    nothing Groom Bride "--after 1" "after equation 1, Groom = person(GroomName, Day)" "" "$neither_group"
    because Groom Bride "--after 2" "after equation 2, Bride = person(BrideName, Day)" \
        "Equation 2 in line 4, Bride = person(BrideName, Day), made them share. It joined this group:
    101010  Groom, Day, Bride
Before it there was a group with Bride inside this one, in this entry:
    000010  Bride
and one with Day, in this entry:
    1*1000  Groom, Day, perhaps with GroomName"
    nothing Groom Bride "--after 3" "after equation 3, Day = 1841" "" "$neither_group"
    because Groom Bride "" "after equation 4, Match = match(Groom, Bride)" \
        "Equation 4 in line 6, Match = match(Groom, Bride), made them share. It joined this group:
    110111  Groom, GroomName, Match, Bride, BrideName
Before it there was a group with Match inside this one, in this entry:
    000100  Match
and one with Groom, in this entry:
    110000  Groom, GroomName
and for the rest of it:
    000011  Bride, BrideName"
}

# In two terms the equation that is found is told, and the entries are those of the table before it.
found_reasons() {
    local equation="f(A, C, [A]) = f(B, B, [A])" made
    made="Equation 1 in line 3, $equation, made them share. In it"
    printf 'vars A B C\nfree\n%s\n' "$equation" >"$file"
    because A B "" "after equation 1, $equation" "$made A = B joined this group:
    110  A, B
Before it there was a group with A inside this one, in this entry:
    100  A
and one with B, in this entry:
    010  B"
    because C A "" "after equation 1, $equation" "$made C = B joined this group:
    111  A, B, C
Before it there was a group with C inside this one, in this entry:
    001  C
and one with B, in this entry:
    110  A, B"
    # A variable on the right, terms in quotes and lists, and a variable of its own.
    equation="'X y'(g(B), [A | 'é']) = 'X y'(A, C)"
    printf 'vars A B C\nfree\n%s\n_ = C\n' "$equation" >"$file"
    because B C "" "after equation 2, _ = C" "Equation 1 in line 3, $equation, made them share. In it C = [A | 'é'] joined this group:
    1110  A, B, C
Before it there was a group with C inside this one, in this entry:
    0010  C
and one with A, in this entry:
    1100  A, B"
    because C C "--after 0" "before the first equation" "Both goals have C: what is not known in it, they share.
They share from the start, by this group:
    0010  C
It is in this entry of the table before the first equation:
    0010  C"
    # Between two points the goals share nothing for a while: at the points they always did.
    equation="p(D, A) = p(a, B)"
    printf 'vars A B C D\n1101\nfree A, B, C\n%s\n' "$equation" >"$file"
    because A B "" "after equation 1, $equation" "They shared from the start already, and share now by equation 1 in line 4, $equation. In it A = B joined this group:
    1100  A, B
Before it there was a group with A inside this one, in this entry:
    1000  A
and one with B, in this entry:
    0100  B"
}

# A group that no equation has touched is told before one that an equation joined, also where it has more variables.
start_reasons() {
    local kept="They share from the start, by this group, which no equation has touched:"
    printf 'vars A B C D\n11**\n0*11\n1000\nA = A\nf(C, a) = f(C, a)\nA = f(_)\n' >"$file"
    because A B "--after 0" "before the first equation" "They share from the start, by this group:
    11000  A, B
It is in this entry of the table before the first equation:
    11**0  A, B, perhaps with C, D"
    because A B "--after 2" "after equation 2, f(C, a) = f(C, a)" "$kept
    11000  A, B
It is in this entry of the table before the first equation:
    11**0  A, B, perhaps with C, D"
    because B,A D "" "after equation 3, A = f(_)" "$kept
    01110  B, C, D
It is in this entry of the table before the first equation:
    0*110  C, D, perhaps with B"
    because A B "" "after equation 3, A = f(_)" "They shared from the start already, and share now by equation 3 in line 7, A = f(_). It joined this group:
    11001  A, B, _
Before it there was a group with A inside this one, in this entry:
    11**0  A, B, perhaps with C, D
and one with _, in this entry:
    00001  _"
    # After P = Q the group of P and Q is the smallest of both; X = X touches nothing.
    printf 'vars X P Y Q Z\n10101\nfree P, Q\nP = Q\nX = X\n' >"$file"
    because X,P Y,Q "" "after equation 2, X = X" "$kept
    10101  X, Y, Z
It is in this entry of the table before the first equation:
    10101  X, Y, Z"
    # A variable of both goals that is known is not what they share.
    printf 'vars A B C\n110\nfree C\nC = a\n' >"$file"
    because A,C C,B "" "after equation 1, C = a" "$kept
    110  A, B
It is in this entry of the table before the first equation:
    110  A, B"
}

nothing_to_explain() {
    local known="A is in no group at the start: it counts as known" none="a goal without variables shares none"
    printf 'vars A B C\nfree B, C\nB = f(A, C)\nf(C) = g(C)\nA = B\n' >"$file"
    nothing A B "--after 1" "after equation 1, B = f(A, C)" " ($known)" "$neither_group"
    same "message of why" "$file: A is in no group: it counts as known" "$(<"$err")"
    nothing B C "--after 2" "after equation 2, f(C) = g(C)" " (equation 2 clashes, f/1 against g/1: no bindings go on from it; $known)" "$neither_group"
    nothing B C "" "after equation 3, A = B" " (equation 2 clashes, f/1 against g/1: no bindings go on from it; $known)" "$neither_group"
    asked 1 "B and C: $no after equation 1, B = f(A, C) ${shared%)}; $known)
Equation 1 in line 3, B = f(A, C), made them share. It joined this group:
    011  B, C
Before it there was a group with B inside this one, in this entry:
    010  B
and one with C, in this entry:
    001  C" "$file: A is in no group: it counts as known" why "$file" B C --after 1
    printf 'vars A B\n11\nA = g(A)\n' >"$file"
    nothing A B "" "after equation 1, A = g(A)" " (equation 1 has no finite solution for A: no bindings go on from it)" "$neither_group"
    asked 0 "no variable and A,B: $yes before the first equation
There is nothing to explain: $none." "" why "$file" - A,B --after 0
    asked 0 "A and no variable: $yes before the first equation
There is nothing to explain: $none." "" why "$file" A - --after 0
    because A,B B,A "--after 0" "before the first equation" "Both goals have A, B: what is not known in them, they share.
They share from the start, by this group:
    11  A, B
It is in this entry of the table before the first equation:
    11  A, B"
}

# The last of 17, 28 and 32 variables.
wide_reasons() {
    local l zeros
    for l in 17 28 32; do
        zeros=$(times $((l - 17)) 0)
        printf 'vars %s\nfree\nX%s = f(X16, X1)\nX16 = a\n' "$l" "$l" >"$file"
        because "X$l" X16 "--after 1" "after equation 1, X$l = f(X16, X1)" "Equation 1 in line 3, X$l = f(X16, X1), made them share. It joined this group:
    $(times 15 0)1${zeros}1  X16, X$l
Before it there was a group with X$l inside this one, in this entry:
    $(times 15 0)0${zeros}1  X$l
and one with X16, in this entry:
    $(times 15 0)1${zeros}0  X16"
        nothing "X$l" X16 "" "after equation 2, X16 = a" "" "$neither_group"
        printf 'vars %s\n*%s\n' "$l" "$(times $((l - 1)) '*')" >"$file"
        because "X$l,X2" X3,X16 "" "before the first equation" "They share from the start, by this group:
    011$(times $((l - 3)) 0)  X2, X3
It is in this entry of the table before the first equation:
    $(times "$l" '*')  any of $(lines "$l" 'X&' | paste -sd, | sed 's/,/, /g')"
    done
}

# The most equations, and the longest terms, which need no larger stack.
long_reasons() {
    local i equation
    { printf 'vars 32\nfree\n' && for i in {1..31}; do echo "X$i = X$((i + 1))"; done && lines 33 'X1 = X1'; } >"$file"
    because X1 X32 "" "after equation 64, X1 = X1" "Equation 31 in line 33, X31 = X32, made them share. It joined this group:
    $(times 32 1)  $(lines 32 'X&' | paste -sd, | sed 's/,/, /g')
Before it there was a group with X31 inside this one, in this entry:
    $(times 31 1)0  $(lines 31 'X&' | paste -sd, | sed 's/,/, /g')
and one with X32, in this entry:
    $(times 31 0)1  X32"
    equation="$(times 511 'f(')X1$(times 511 ')') = $(times 511 'f(')X2$(times 511 ')')"
    printf 'vars 2\nfree\n%s\n' "$equation" >"$file"
    because X1 X2 "" "after equation 1, $equation" "Equation 1 in line 3, $equation, made them share. In it X1 = X2 joined this group:
    11  X1, X2
Before it there was a group with X1 inside this one, in this entry:
    10  X1
and one with X2, in this entry:
    01  X2"
    same "why in a small stack" 1 "$(ulimit -s 512 && "$program" why "$file" X1 X2 >"$out" 2>&1; echo $?)"
}
