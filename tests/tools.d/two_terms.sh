# shellcheck shell=bash disable=SC2154 # the names are those of tests/tools
# Equations of two terms: the words of both sides, what sharerun does not read, clashes, and what is found in each equation.

# ---- Words of both sides

# The text $1, with escapes, gives with --unify the words $2. What is said of clashes and of variables in no group is tested elsewhere.
unifies() {
    printf '%b' "$1" >"$file"
    run input "$file" --unify
    same "status of $1" 0 "$status"
    same "words of $1" "$(xargs <<<"$2")" "$(words <"$out" | xargs)"
}

both_words() {
    # f(X1, g(X2)) = f(X3, X4): 4 tokens on the left, 3 on the right.
    unifies 'vars 4\nf(X1, g(X2)) = f(X3, X4).' "4 0 1 7 4 3 $(head_of 1 2) 1 $(head_of 2 1) 2 $(head_of 1 2) 3 4"
    # All left counts, all right counts, then the left side and the right side of each equation; a variable is a token like any other.
    unifies 'vars 3\nX1 = f(X2)\ng(X3, a) = g(X1, X2)\nf(X1) = X3\nX1 = X2' "3 0 4 14 1 3 2 1 2 3 1 1 \
1 $(head_of 1 1) 2 $(head_of 2 2) 3 $(head_of 3 0) $(head_of 2 2) 1 2 $(head_of 1 1) 1 3 1 2"
    unifies 'vars 1\n1\na = a' "1 1 1 1 1 2 1 1 $(head_of 1 0) $(head_of 1 0)"
    unifies "vars 2\n[X1, 'b c'] = ['b c' | X2]\n1870 = '1870'" "2 0 2 10 5 1 3 1 \
$(head_of 1 2) 1 $(head_of 1 2) $(head_of 2 0) $(head_of 3 0) $(head_of 1 2) $(head_of 2 0) 2 $(head_of 4 0) $(head_of 5 0)"
    unifies 'vars 1\nf(_) = f(_)\n_ = g(X1)' "4 3 15 15 15 2 4 8 2 7 2 1 2 2 $(head_of 1 1) 2 $(head_of 1 1) 3 4 $(head_of 2 1) 1"
    unifies 'vars 3' "3 0 0 0"
    # A file of the old kind has both forms.
    cp examples/parish.txt "$file"
    run input "$file" --unify
    same "both sides of the example" "3 3 7 3 5 1 2 4 2 5 1 1 2 1 1 32785 2 3 32800" "$(words <"$out" | xargs)"
}

# ---- What sharerun does not read

neither="a variable on one side. All other commands take the file as it is: \`sharetext tables\` has the tables, and \`sharetext input --unify\` writes \
what sharing_unify_run reads"

# The text $1, with escapes, has at $2 equation $3, which sharerun does not read.
unread_at() {
    local line column characters
    printf '%b' "$1" >"$file"
    IFS=: read -r line column characters <<<"$2"
    run input "$file"
    ended "input of $1" 2 "" "$(mistake "$file" "$line" "$column" "$characters" \
        "sharerun does not read equation $3: neither side of it is a variable." "$neither")"
}

for_sharerun() {
    unread_at 'vars 2\nfree\nf(X1) = g(X2).' 3:1:13 1
    unread_at 'vars 2\nfree\nX1 = a\n a = X1\n\n x1 = [a] % b\nf(X1) = f(X2)' 6:2:8 3
    unread_at 'vars 2\nfree\n1870 = 1870' 3:1:11 1
    # A variable on either side is enough.
    printf 'vars 2\nfree\nf(X1) = X2\n_ = f(X1)\n100 = X1\nX1 = X1\n' >"$file"
    run input "$file"
    same "status of input with a variable on one side each" 0 "$status"
    sharerun_ends "eq 4 entries 0"
    # The message of a variable in no group comes first, as with every command; a clash is not told.
    printf 'vars 2\nfree X1\nf = g' >"$file"
    run input "$file"
    same "input of a clash" "2 $file: X2 is in no group: it counts as known|$file:3:1: sharerun does not read equation 1: neither side of it is a variable." \
        "$status $(head -n 2 "$err" | paste -sd '|')"
    same "lines of input of a clash" 5 "$(wc -l <"$err")"
}

# ---- Answers

# What is said of equation $1, the text $3 at $2 (line:column), whose heads $4 clash.
clash_at() {
    local line column text
    IFS=: read -r line column <<<"$2"
    mapfile -t -s $((line - 1)) -n 1 text <"$file"
    printf '%s:%s:%s: Equation %s clashes: %s.\n    %s\n    %s%s\n    No bindings go on from it: the table is empty after it.\n' "$file" "$line" "$column" "$1" "$4" \
        "${text[0]}" "$(times $((column - 1)) ' ')" "$(times ${#3} ^)"
}

pair_answers() {
    local one="after equation 1, f(A, g(B)) = f(C, D)" two="after equation 2, h(D, a) = h(b, _)"
    printf 'vars A B C D\nfree\nf(A, g(B)) = f(C, D).\nh(D, a) = h(b, _)\n' >"$file"
    asked 0 "A and C: $yes before the first equation" "" apart "$file" A C --after 0
    asked 1 "A and C: $no $one $shared" "" apart "$file" A C --after 1
    asked 0 "A and B: $yes $one" "" apart "$file" A B --after 1
    asked 1 "B and D: $no $one $shared" "" apart "$file" B D --after 1
    asked 0 "B and D: $yes $two" "" apart "$file" B D
    asked 0 "Table before the first equation:
    10000  A
    01000  B
    00100  C
    00010  D
    00001  _
Table $one:
    00001  _
    10100  A, C
    01010  B, D
Table $two:
    10100  A, C
    known: B, D" "" tables "$file"
    asked 0 "$("$program" tables "$file")" "" tables -
    asked 2 "" "sharetext: --after 3 is no point of $file.
    Expected: a number from 0 to 2, how many of the equations have been applied." pairs "$file" --after 3
    run form "$file"
    same "the form of $file" "0 5 1 31 5" "$status $(words <"$out" | xargs)"
    # Nothing is found: the table stays.
    printf 'vars 2\n1*\nf(a) = f(a)\n' >"$file"
    asked 0 "Table before the first equation:
    1*  X1, perhaps with X2
Table after equation 1, f(a) = f(a):
    1*  X1, perhaps with X2" "" tables "$file"
}

# After a clash nothing shares, and each answer says why; before it answers are as ever. A command that asks after it tells its place.
clash_answers() {
    local said note="(equation 2 clashes, child/2 against child/3: no bindings go on from it" at="after equation 2, p(A, child(B, 1)) = p(C, child(B, C, 1))"
    printf 'vars A B C D\nfree A B C\nA = f(B)\n p(A, child(B, 1)) = p(C, child(B, C, 1)) . %% no\nC = D\n' >"$file"
    said="$file: D is in no group: it counts as known
$(clash_at 2 4:2 "p(A, child(B, 1)) = p(C, child(B, C, 1))" "child/2 against child/3")"
    local known="; D is in no group at the start: it counts as known)"
    asked 0 "A and B: $yes $at $note$known" "$said" apart "$file" A B --after 2
    asked 0 "A and A: $yes after equation 3, C = D $note$known" "$said" apart "$file" A A
    asked 1 "A and B: $no after equation 1, A = f(B) ${shared%)}$known" "${said%%$'\n'*}" apart "$file" A B --after 1
    run tables "$file"
    same "tables with a clash" "0 $said" "$status $(<"$err")"
    same "tables after a clash" "Table $at $note$known:
    no entry
    known: A, B, C, D
Table after equation 3, C = D $note$known:
    no entry
    known: A, B, C, D" "$(sed -n '/^Table after equation 2/,$p' "$out")"
    run show "$file"
    same "groups after a clash" "0 Groups $at $note$known: none|Groups after equation 3, C = D $note$known: none" \
        "$status $(grep '^Groups after equation [23]' "$out" | paste -sd '|')"
    run form "$file"
    same "the form after a clash" "0 4 0 $said" "$status $(words <"$out" | xargs) $(<"$err")"
    run input "$file" --unify
    same "both sides of a clash" "0 $said" "$status $(<"$err")"
    # Each clash is told; an answer names the first.
    printf 'vars 2\nfree\na = b\nf(X1, 1) = f(X2, 2)\n' >"$file"
    asked 0 "X1 and X2: $yes after equation 2, f(X1, 1) = f(X2, 2) (equation 1 clashes, a/0 against b/0: no bindings go on from it)" \
        "$(clash_at 1 3:1 "a = b" "a/0 against b/0"; clash_at 2 4:1 "f(X1, 1) = f(X2, 2)" "1 against 2")" apart "$file" X1 X2
}

# The equation $1 clashes with the heads $2.
heads() {
    printf 'vars 3\nfree\n%s\n' "$1" >"$file"
    run pairs "$file"
    same "the heads of $1" "0 $file:3:1: Equation 1 clashes: $2." "$status $(head -n 1 "$err")"
}

clash_heads() {
    heads "f(X1) = g(X1)" "f/1 against g/1"
    heads "f(X1) = f(X1, X2)" "f/1 against f/2"
    heads "f = f(X1)" "f/0 against f/1"
    heads "f(X1, h(a), b) = f(X2, h(b), c)" "a/0 against b/0"
    heads "'a b'(X1) = 'it''s'" "'a b'/1 against 'it''s'/0"
    heads "'A' = '\\\\'" "'A'/0 against '\\\\'/0"
    heads "'' = ' '" "''/0 against ' '/0"
    heads "1870 = '1870'" "1870 against '1870'/0"
    heads "[X1] = []" "'.'/2 against []/0"
    heads "[X1, a | X2] = [X1, b]" "a/0 against b/0"
    heads "f([a, b]) = f([a])" "'.'/2 against []/0"
    heads "-3 = 2.5e6" "-3 against 2.5e6"
    heads "'É' = x_Y9" "'É'/0 against x_Y9/0"
    # The same symbol in two ways of writing is no clash, and neither is what a variable hides.
    printf "vars 3\nfree\nf('a', [b]) = f(a, '.'(b, []))\nf(X1, a) = f(g(b), a)\n" >"$file"
    run pairs "$file"
    same "no clash" "0 " "$status $(<"$err")"
}

# ---- What is found in each equation

explained_files() {
    printf "vars A B C D\nfree\n\nf(A, g(B)) = f(C, D).\n  h(D) = A %% b\n'X y'([A, b | C], 2.5) = 'X y'(D, B)\nf(a, [ ]) = f(a, [])\nA=[B,'.'|_]\n" >"$file"
    asked 0 "Equation 1 in line 4, f(A, g(B)) = f(C, D):
    A = C
    D = g(B)
Equation 2 in line 5, h(D) = A:
    A = h(D)
Equation 3 in line 6, 'X y'([A, b | C], 2.5) = 'X y'(D, B):
    D = [A, b | C]
    B = 2.5
Equation 4 in line 7, f(a, [ ]) = f(a, []):
    nothing: the two sides are the same, and the table stays as it is
Equation 5 in line 8, A=[B,'.'|_]:
    A = [B, '.' | _]" "" explain "$file"
    asked 0 "$(<"$out")" "" explain -
    printf "vars A B C\nfree\nf(g([[C], B]), 'it''s'('\\\\\\\\', -1)) = f(A, B)\n'.'(A, B, B) = '.'(B, [], '[]'(a))\n'[]'(b) = A\n'.' = A\n" >"$file"
    asked 0 "Equation 1 in line 3, f(g([[C], B]), 'it''s'('\\\\', -1)) = f(A, B):
    A = g([[C], B])
    B = 'it''s'('\\\\', -1)
Equation 2 in line 4, '.'(A, B, B) = '.'(B, [], '[]'(a)):
    A = B
    B = []
    B = '[]'(a)
Equation 3 in line 5, '[]'(b) = A:
    A = '[]'(b)
Equation 4 in line 6, '.' = A:
    A = '.'" "" explain "$file"
    # A clash anywhere: nothing of the equation is applied, and none of it is shown. The next ones are told as ever.
    printf 'vars A B\nfree A\nf(A, x) = f(B, y)\nA = B\n' >"$file"
    asked 1 "Equation 1 in line 3, f(A, x) = f(B, y):
    clash: x/0 against y/0. No bindings go on from it: the table is empty after it.
Equation 2 in line 4, A = B:
    A = B" "$file: B is in no group: it counts as known" explain "$file"
    printf 'vars 2\nfree\n' >"$file"
    asked 0 "" "" explain "$file"
    asked 2 "" "$scratch/none: The file cannot be read: No such file or directory." explain "$scratch/none"
    printf 'vars 2\nf(X1) = f(X3)\n' >"$file"
    run explain "$file"
    ended "explain of a wrong file" 2 "" "$(mistake "$file" 2 11 2 "X3 is not one of the variables of line 1." "X1 or X2 $symbols")"
}

# ---- Variables in their own terms

# What is said of equation $1, the text $3 at $2 (line:column), without a finite solution for $4; $5 is what follows for the table.
endless_at() {
    clash_at "$1" "$2" "$3" "" | sed "1s/clashes: .*/has no finite solution: $4 stands inside its own term./
4s/.*/    A clause with it never succeeds.$5/"
}
empty_after=" No bindings go on from it: the table is empty after it."
solves=", which no finite term solves: a clause with it never succeeds."

# X = X leaves the table, entries and order too, and X = f(X) leaves nothing, also where they are found in two terms.
own_terms() {
    local stays=", which says nothing: the table stays as it is" said note at
    printf 'vars A B C\n110\n101\nA = A\nf(B, g(C), A) = f(B, g(C), A)\n' >"$file"
    asked 0 "Equation 1 in line 4, A = A:
    A = A$stays
Equation 2 in line 5, f(B, g(C), A) = f(B, g(C), A):
    B = B$stays
    C = C$stays
    A = A$stays" "" explain "$file"
    asked 0 "$(for at in "before the first equation" "after equation 1, A = A" "after equation 2, f(B, g(C), A) = f(B, g(C), A)"; do
        echo "Table $at:
    110  A, B
    101  A, C"
    done)" "" tables "$file"
    asked 0 "B and C: $yes after equation 2, f(B, g(C), A) = f(B, g(C), A)" "" apart "$file" B C
    # The equations before it are told, and nothing after it in its own equation.
    printf 'vars A B C\nfree\nf(A, B, C) = f(B, g(B), a)\n h(C, [C]) = C. %% no\nB = C\n' >"$file"
    asked 1 "Equation 1 in line 3, f(A, B, C) = f(B, g(B), a):
    A = B
    B = g(B)$solves$empty_after
Equation 2 in line 4, h(C, [C]) = C:
    C = h(C, [C])$solves$empty_after
Equation 3 in line 5, B = C:
    B = C" "" explain "$file"
    note="(equation 1 has no finite solution for B: no bindings go on from it)" at="after equation 1, f(A, B, C) = f(B, g(B), a)"
    said=$(endless_at 1 3:1 "f(A, B, C) = f(B, g(B), a)" B "$empty_after")
    asked 0 "A and A: $yes $at $note" "$said" apart "$file" A A --after 1
    asked 0 "$(<"$out")" "$said" apart --after 1 "$file" A A
    said+=$'\n'$(endless_at 2 4:2 "h(C, [C]) = C" C "$empty_after")
    run tables "$file"
    same "tables after an equation without a finite solution" "0 $said" "$status $(<"$err")"
    same "the last table of it" "Table after equation 3, B = C $note:
    no entry
    known: A, B, C" "$(sed -n '/^Table after equation 3/,$p' "$out")"
    run form "$file" --packed
    same "the packed form of it" "0 3 0 0 0 $said" "$status $(numbers <"$out") $(<"$err")"
    # A clash in the same equation is what is told; of two that fail an answer names the first.
    printf 'vars A B\nfree\nf(A, a) = f(g(A), b)\nA = g(A)\n' >"$file"
    asked 0 "A and B: $yes after equation 2, A = g(A) (equation 1 clashes, a/0 against b/0: no bindings go on from it)" \
        "$(clash_at 1 3:1 "f(A, a) = f(g(A), b)" "a/0 against b/0"; endless_at 2 4:1 "A = g(A)" A "$empty_after")" apart "$file" A B
    # sharerun reads both kinds.
    printf 'vars 3\n110\n101\nX1 = X1\nX1 = f(X1)\nX2 = X3\n' >"$file"
    run input "$file"
    same "status of input of both kinds" "0 $(endless_at 2 5:1 "X1 = f(X1)" X1 "$empty_after")" "$status $(<"$err")"
    same "sharerun's lines" "vars 3 entries 2|110|101|eq 1 entries 2|110|101|eq 2 entries 0|eq 3 entries 0" "$("$sharerun" <"$out" | paste -sd '|')"
}

# Such an equation is never full; one that is found before it may be, and then there is no table after it to speak of.
full_beside_own() {
    local equation
    equation="f(X1, X2) = f(g($(other_ones ,)), h(X2))"
    printf 'vars 16\n%s\n%s\n' "$(next_ones)" "$equation" >"$file"
    asked 1 "Equation 1 in line 17, $equation:
    X1 = g($(other_ones ', '))
    X2 = h(X2)$solves
    full: this needs a table of more than 256 entries, and nothing after it is applied" "" explain "$file"
    run pairs "$file"
    same "pairs of it" "2 0" "$status $(wc -c <"$out")"
    same "what is said of it" "$(endless_at 1 17:1 "$equation" X2 "")
$file:17:1: Equation 1 is full: it needs a table of more than 256 entries." "$(head -n 5 "$err")"
    equation="f(X2, X1) = f(h(X2), g($(other_ones ,)))"
    printf 'vars 16\n%s\n%s\nX1 = f(X1,%s)\n' "$(next_ones)" "$equation" "$(seq -f 'X%g' -s , 2 15)" >"$file"
    asked 1 "Equation 1 in line 17, $equation:
    X2 = h(X2)$solves$empty_after
Equation 2 in line 18, X1 = f(X1,$(seq -f 'X%g' -s , 2 15)):
    X1 = f(X1, $(seq -f 'X%g' -s ', ' 2 15))$solves$empty_after" "" explain "$file"
    run pairs "$file"
    same "pairs of it the other way round" "0 120" "$status $(grep -c "$yes" "$out")"
}

# ---- Full equations

# Each of X1 to X16 may share with the next one. The second equation finds X1 = X2 and then one that is full.
full_pair_file() {
    printf 'vars 16\n%s\nf(X1) = f(X1)\n\n f(X1, X1%s) = f(X2, g(%s)%s). %% full\nX1 = a\n' "$(next_ones)" "$1" "$(other_ones ,)" "$2"
}

full_pairs() {
    local equation said
    equation="f(X1, X1) = f(X2, g($(other_ones ,)))"
    full_pair_file "" "" >"$file"
    said="$file:19:2: Equation 2 is full: it needs a table of more than 256 entries.
     $equation. % full
     $(times ${#equation} ^)
    No answer can be given for a point after it. What is safe to go on with there is
    the all-star table, where every variable may share with every other: $(times 16 '*')
    Before it answers are given (--after 1), from what was known after equation 1, f(X1) = f(X1):
$(for i in {1..15}; do echo "    $(times $((i - 1)) 0)11$(times $((15 - i)) 0)  X$i, X$((i + 1))"; done)"
    asked 2 "" "$said" apart "$file" X1 X2
    asked 2 "" "$said" pairs "$file"
    asked 0 "X1 and X3: $yes after equation 1, f(X1) = f(X1)" "" apart "$file" X1 X3 --after 1
    asked 1 "Equation 1 in line 17, f(X1) = f(X1):
    X1 = X1, which says nothing: the table stays as it is
Equation 2 in line 19, $equation:
    X1 = X2
    X1 = g($(other_ones ', '))
    full: this needs a table of more than 256 entries, and nothing after it is applied" "" explain "$file"
    # With a clash behind it the same equation is not full.
    full_pair_file ", a" ", b" >"$file"
    run pairs "$file"
    same "pairs after a clash in a full equation" "0 120 1" "$status $(grep -c "$yes" "$out") $(grep -c ' Equation 2 clashes: a/0 against b/0\.$' "$err")"
}

# ---- Limits

# So many times f( and ) around a; $1 is at least 1 token.
deep() { times $(($1 - 1)) 'f(' && printf a && times $(($1 - 1)) ')'; }

unify_limits() {
    local what="There are more than 1024 variables and symbols in the terms."
    local tokens="at most 1024 in all equations together, both sides of each, since one has a variable on neither; a list counts one more for each of \
its elements and one for its end"
    for left in 1 2 512 1023; do
        printf 'vars 1\n1\n%s = %s\n' "$(deep "$left")" "$(deep $((1024 - left)))" >"$file"
        run pairs "$file"
        same "1024 tokens, $left on the left" 0 "$status"
        same "1024 tokens, $left on the left, in a small stack" $((left != 512)) "$(ulimit -s 512 && "$program" explain "$file" >"$out" 2>&1; echo $?)"
        printf 'vars 1\n1\n%s = %s\n' "$(deep "$left")" "$(deep $((1025 - left)))" >"$file"
        fails "1025 tokens, $left on the left" "3:$((3 * left + 2 + 2 * (1024 - left))):1" "$what" "$tokens"
    done
    # A variable that is a side counts as soon as one equation has none.
    printf 'vars 1\n1\nX1 = %s\na = b\n' "$(deep 1022)" >"$file"
    fails "1023 tokens, and a variable that counts" 4:5:1 "$what" "$tokens"
    printf 'vars 1\n1\nX1 = %s\na = b\n' "$(deep 1021)" >"$file"
    run pairs "$file"
    same "1024 tokens with a variable" 0 "$status"
    printf 'vars 1\n1\na = b\nX1 = %s\n' "$(deep 1022)" >"$file"
    fails "the same after it" 4:2048:1 "$what" "$tokens"
    # Where each equation has a variable on one side, both sides may be too long together for --unify alone.
    printf 'vars 1\n1\nX1 = %s\n' "$(deep 1024)" >"$file"
    run pairs "$file"
    same "1024 tokens and a variable" 0 "$status"
    asked 2 "" "$file: There are more than 1024 variables and symbols on both sides together.
    Expected: at most 1024 where left sides count too, as they do with --unify." input "$file" --unify
    asked 0 "Equation 1 in line 3, X1 = $(deep 1024):
    X1 = $(deep 1024)" "" explain "$file"
    # 64 equations of two terms.
    { printf 'vars 1\n1\n' && lines 64 'f(X1) = f(a)'; } >"$file"
    run tables "$file"
    same "64 equations of two terms" "0 65" "$status $(grep -c ^Table "$out")"
    echo 'f(X1) = f(a)' >>"$file"
    fails "65 equations of two terms" 67:1:1 "There are more than 64 equations." "at most 64 equations"
}
