# shellcheck shell=bash disable=SC2154 # the names are those of tests/tools
# What is said of variables in no group, the answers at each point, goals, and full equations.

# ---- Variables in no group

# Of the file, after "$@": status $1, lines $2, message $3.
asked() {
    local due=$1 lines=$2 said=$3
    shift 3
    run "$@"
    ended "$*" "$due" "$lines" "$said"
}

in_no_group() {
    local told="$file: B is in no group: it counts as known" known="B is in no group at the start: it counts as known"
    printf 'vars A B C\n1*0\n' >"$file"
    asked 1 "A and B: may not run side by side before the first equation (they may share a variable; C is in no group at the start: it counts as known)" \
        "$file: C is in no group: it counts as known" apart "$file" A B
    # A variable that stands at 0 everywhere is in none; one that stands at 1 or * in some entry is in one.
    for text in 'vars A B C\n100\n001\n' 'vars A B C\nfree C A\n' 'vars A B C\n000\n*0*\n'; do
        printf '%b' "$text" >"$file"
        run input "$file"
        same "message of $text" "$told" "$(<"$err")"
    done
    for text in 'vars A B C\nfree' 'vars A B C\n***' 'vars A B C\nfree A,C\n0*0' 'vars A B C\n110\nfree C'; do
        printf '%b' "$text" >"$file"
        run input "$file"
        same "message of $text" "" "$(<"$err")"
    done
    # The forgotten entry of B makes A and C known too: each answer says on what it rests.
    printf 'vars A B C\nfree A, C\nA = f(B)\nC = f(B)\n' >"$file"
    asked 0 "A and B: may run side by side before the first equation ($known)" "$told" apart "$file" A B --after 0
    asked 0 "A and C: may run side by side after equation 2, C = f(B) ($known)" "$told" apart "$file" A C
    asked 0 "A and B: may run side by side after equation 1, A = f(B) ($known)
A and C: may run side by side after equation 1, A = f(B) ($known)
B and C: may run side by side after equation 1, A = f(B) ($known)" "$told" pairs "$file" --after 1
    asked 0 "Table before the first equation ($known):
    100  A
    001  C
    known: B
Table after equation 1, A = f(B) ($known):
    001  C
    known: A, B
Table after equation 2, C = f(B) ($known):
    no entry
    known: A, B, C" "$told" tables "$file"
    asked 0 "$("$program" tables "$file" 2>"$scratch/ignored")" "standard input: B is in no group: it counts as known" tables -
    # With it, neither is said.
    sed -i 's/free.*/free/' "$file"
    asked 1 "A and C: may not run side by side after equation 2, C = f(B) (they may share a variable)" "" apart "$file" A C
    printf 'vars 3\nX1 = _' >"$file"
    asked 0 "X1 and X2: may run side by side after equation 1, X1 = _ (X1, X2, X3 are in no group at the start: they count as known)" \
        "$(for i in 1 2 3; do echo "$file: X$i is in no group: it counts as known"; done)" apart "$file" X1 X2
}

# ---- Answers

no="may not run side by side" yes="may run side by side" shared="(they may share a variable)"

points() {
    local at=("before the first equation" "after equation 1, Baptism = f(Wedding)" "after equation 2, Parish = a")
    cp examples/parish.txt "$file"
    asked 0 "Baptism and Wedding: $yes ${at[0]}" "" apart "$file" Baptism Wedding --after 0
    asked 1 "Baptism and Wedding: $no ${at[1]} $shared" "" apart "$file" Baptism Wedding --after 1
    asked 1 "Baptism and Parish: $no ${at[1]} $shared" "" apart --after 1 "$file" Baptism Parish
    asked 0 "Baptism and Parish: $yes ${at[2]}" "" apart "$file" Baptism --after 2 Parish
    asked 0 "Baptism and Parish: $yes ${at[2]}" "" apart "$file" Baptism Parish
    asked 0 "Baptism and Wedding: $yes ${at[0]}
Baptism and Parish: $yes ${at[0]}
Wedding and Parish: $no ${at[0]} $shared" "" pairs "$file" --after 0
    asked 0 "Baptism and Wedding: $no ${at[1]} $shared
Baptism and Parish: $no ${at[1]} $shared
Wedding and Parish: $no ${at[1]} $shared" "" pairs "$file" --after 1
    asked 0 "Baptism and Wedding: $no ${at[2]} $shared
Baptism and Parish: $yes ${at[2]}
Wedding and Parish: $yes ${at[2]}" "" pairs "$file"
    asked 0 "$(<"$out")" "" pairs "$file" --after 02
    asked 0 "$(<"$out")" "" pairs - --after 2
    asked 0 "Table ${at[0]}:
    100  Baptism
    01*  Wedding, perhaps with Parish
    0*1  Parish, perhaps with Wedding
Table ${at[1]}:
    001  Parish
    11*  Baptism, Wedding, perhaps with Parish
Table ${at[2]}:
    110  Baptism, Wedding
    known: Parish" "" tables "$file"
    for point in 3 65 4294967298 -1 x 1x "" " 1" 1.0; do
        for command in pairs apart why; do
            goals=()
            [[ $command == pairs ]] || goals=(Baptism -)
            asked 2 "" "sharetext: --after $point is no point of $file.
    Expected: a number from 0 to 2, how many of the equations have been applied." "$command" "$file" "${goals[@]}" --after "$point"
        done
    done
    # An answer quotes the equation without blanks around it, its full stop and its comment.
    printf 'vars 2\nfree\n \tX1  = f(X2, _) .  %% b\n' >"$file"
    asked 1 "X1 and X2: $no after equation 1, X1  = f(X2, _) $shared" "" apart "$file" X1 X2
    printf 'vars 2\n**\n_ = X1' >"$file"
    asked 0 "Table before the first equation:
    **0  any of X1, X2
    00*  _
Table after equation 1, _ = X1:
    0*0  X2
    1*1  X1, _, perhaps with X2" "" tables "$file"
    printf 'vars Ab\nfree' >"$file"
    asked 0 "" "$file: There is one variable, and so no pair." pairs "$file"
}

goals() {
    local now="before the first equation"
    printf 'vars 3\n100\n01*\n0*1\n' >"$file"
    asked 0 "X1 and X2: $yes $now" "" apart "$file" X1 X2
    asked 1 "X2 and X3: $no $now $shared" "" apart "$file" X2 X3
    asked 0 "X1 and X2,X3: $yes $now" "" apart "$file" X1 X2,X3
    asked 1 "X2,X1 and X3: $no $now $shared" "" apart "$file" X2,X1 X3
    asked 1 " X2 , X1 and X3: $no $now $shared" "" apart "$file" " X2 , X1" X3
    asked 1 "X1,X1 and X1: $no $now $shared" "" apart "$file" X1,X1 X1
    asked 0 "no variable and X1,X2,X3: $yes $now" "" apart "$file" - X1,X2,X3
    asked 0 "X1 and no variable: $yes $now" "" apart "$file" X1 -
    asked 1 "X2 and X3: $no $now $shared" "" apart - X2 X3
    cp examples/parish.txt "$file"
    now="after equation 2, Parish = a"
    asked 0 "Baptism,Wedding and Parish: $yes $now" "" apart "$file" Baptism,Wedding Parish
    asked 1 "Parish,Baptism and Parish,Wedding: $no $now $shared" "" apart "$file" Parish,Baptism Parish,Wedding
    asked 0 "Parish and Parish: $yes $now" "" apart "$file" Parish Parish
}

# The last of 17, 28 and 32 variables, in goals, and what is wrong with it.
wide_answers() {
    local l at known
    for l in 17 28 32; do
        at="after equation 1, X$l = f(X16, X1)"
        printf 'vars %s\nfree\nX%s = f(X16, X1)\nX16 = a\nX%s = b\n' "$l" "$l" "$l" >"$file"
        asked 0 "X$l and X16: $yes before the first equation" "" apart "$file" "X$l" X16 --after 0
        asked 1 "X$l and X16: $no $at $shared" "" apart "$file" "X$l" X16 --after 1
        asked 0 "X2,X15 and X1,X$l: $yes $at" "" apart "$file" X2,X15 "X1,X$l" --after 1
        asked 0 "X$l and X$l: $yes after equation 3, X$l = b" "" apart "$file" "X$l" "X$l"
        run pairs "$file" --after 1
        same "pairs of $l variables" "0 $((l * (l - 1) / 2)) 3 " "$status $(wc -l <"$out") $(grep -c "$no" "$out") $(<"$err")"
        run tables "$file"
        same "the last line of the tables of $l variables" "    known: X1, X16, X$l" "$(tail -n 1 "$out")"
        known="X$l is in no group at the start: it counts as known"
        printf 'vars %s\n%s0\n' "$l" "$(times $((l - 1)) '*')" >"$file"
        asked 0 "X1 and X$l: $yes before the first equation ($known)" "$file: X$l is in no group: it counts as known" apart "$file" X1 "X$l"
    done
    # A full equation of 32 variables.
    full_file | sed "s/^vars 16/vars 32/; s/^\([01][01]*\)\$/\1$(times 16 0)/" >"$file"
    run pairs "$file"
    same "a full equation of 32 variables" "2 the all-star table, where every variable may share with every other: $(times 32 '*')" \
        "$status $(grep -o 'the all-star table.*' "$err")"
    wrong 'vars 32\nfree X31, X32, X32' 2:16:3 "X32 stands twice in this line." "each variable once"
    wrong 'vars 32\nX32 = X33' 2:7:3 "X33 is not one of the variables of line 1." \
        "$(lines 31 'X&' | paste -sd, | sed 's/,/, /g') or X32 $symbols"
    wrong "vars 32\n$(times 31 0)2" 2:32:1 "'2' cannot stand here." "0, 1 or * for X32, position 32 of 32"
}

# All groups of so many variables, those of two entries, which have many in common, and a group of all variables.
wide_groups() {
    local l stars
    for l in 17 28 32; do
        stars=$(times $((l - 1)) '*')
        printf 'vars %s\n*%s\n' "$l" "$stars" >"$file"
        run show "$file"
        same "all groups of $l variables" "0 Groups before the first equation: $(((1 << l) - 1))|    and $(((1 << l) - 65)) more" \
            "$status $(sed -n '1p;$p' "$out" | paste -sd '|')"
        same "the last group of one of $l variables" "   $(times $((l - 1)) ' .') x" "$(sed -n "$((1 + l + l))p" "$out")"
        run tables "$file"
        same "the entry of all groups of $l variables" "    *$stars  any of $(lines "$l" 'X&' | paste -sd, | sed 's/,/, /g')" "$(tail -n 1 "$out")"
        printf 'vars %s\n1%s\n%s1\n' "$l" "$stars" "$stars" >"$file"
        run show "$file"
        same "groups of two entries of $l variables" "Groups before the first equation: $((3 << (l - 2)))" "$(head -n 1 "$out")"
        run tables "$file"
        same "the last of two entries of $l variables" "    ${stars}1  X$l, perhaps with $(lines $((l - 1)) 'X&' | paste -sd, | sed 's/,/, /g')" "$(tail -n 1 "$out")"
        printf 'vars %s\n%s\n' "$l" "$(times "$l" 1)" >"$file"
        run show "$file"
        same "a group of $l variables" "Groups before the first equation: 1|   $(times "$l" ' x')" "$(sed -n '1p;$p' "$out" | paste -sd '|')"
    done
}

# The goal $1 is wrong at column $2, in $3 characters, as $4 says, where $5 is expected; first or second.
wrong_goal() {
    local said
    said="column $2: $4
    $1
    $(times $(($2 - 1)) ' ')$(times "$3" ^)
    Expected: $5."
    for command in apart why; do
        asked 2 "" "sharetext: goal 1, $said" "$command" "$file" "$1" Wedding
        asked 2 "" "sharetext: goal 2, $said" "$command" "$file" - "$1" --after 1
    done
}

wrong_goals() {
    local one="Baptism, Wedding or Parish, with commas between them, or - for no variable"
    local more="a comma and a further variable, or the end of the goal"
    local unknown="is not one of the variables of line 6 of $file."
    cp examples/parish.txt "$file"
    wrong_goal X1 1 2 "X1 $unknown" "$one"
    wrong_goal Baptism,Weding 9 6 "Weding $unknown" "$one"
    wrong_goal "Parish, _" 9 1 "_ $unknown" "$one"
    wrong_goal "" 1 1 "The goal ends too early." "$one"
    wrong_goal "Parish," 8 1 "The goal ends too early." "$one"
    wrong_goal ",Parish" 1 1 "',' cannot stand here." "$one"
    wrong_goal "Parish,,Wedding" 8 1 "',' cannot stand here." "$one"
    wrong_goal parish 1 6 "'parish' cannot stand here." "$one"
    wrong_goal "Parish,-" 8 1 "'-' cannot stand here." "$one"
    wrong_goal "Parish Wedding" 8 7 "'Wedding' cannot stand here." "$more"
    wrong_goal "Parish#" 7 1 "'#' cannot stand here." "$more"
    wrong_goal "Parish;Wedding" 7 1 "';' cannot stand here." "$more"
    # The file comes first: without it no goal can be read.
    printf 'vars 3\n\nX1 = f(\n' >"$file"
    for command in apart why; do
        run "$command" "$file" Y Z
        same "$command of a wrong file" "2 $file:3:8: $early" "$status $(head -n 1 "$err")"
    done
}

# ---- Full equations

# The entries of X1 to X16 where each may share with the next one.
next_ones() { for i in {1..15}; do echo "$(times $((i - 1)) 0)11$(times $((15 - i)) 0)"; done; }

# The variables X2 to X16, with $1 between two.
other_ones() { seq -f 'X%g' -s "$1" 2 16; }

# X1 = X1 leaves that so, in the same order; X1 with X2 to X16 needs more than 256 entries.
full_file() { printf 'vars 16\n%s\nX1 = X1\n\n X1 = f(%s). %% full\nX1 = a\n' "$(next_ones)" "$(other_ones ,)"; }

full() {
    local equation said
    equation="X1 = f($(other_ones ,))"
    full_file >"$file"
    said="$file:19:2: Equation 2 is full: it needs a table of more than 256 entries.
     $equation. % full
     $(times ${#equation} ^)
    No answer can be given for a point after it. What is safe to go on with there is
    the all-star table, where every variable may share with every other: $(times 16 '*')
    Before it answers are given (--after 1), from what was known after equation 1, X1 = X1:
$(for i in {1..15}; do echo "    $(times $((i - 1)) 0)11$(times $((15 - i)) 0)  X$i, X$((i + 1))"; done)"
    for command in apart why; do
        asked 2 "" "$said" "$command" "$file" X1 X2
        asked 2 "" "$said" "$command" "$file" X1 X2 --after 2
        asked 2 "" "$said" "$command" "$file" - - --after 3
    done
    asked 2 "" "$said" pairs "$file"
    asked 0 "X1 and X3: $yes after equation 1, X1 = X1" "" apart "$file" X1 X3 --after 1
    asked 1 "X1 and X1: $no before the first equation $shared" "" apart "$file" X1 X1 --after 0
    run pairs "$file" --after 1
    same "pairs before a full equation" "0 105 " "$status $(grep -c "$yes after equation 1, X1 = X1\$" "$out") $(<"$err")"
    run tables "$file"
    same "tables of a full file" "2 $said" "$status $(<"$err")"
    same "the points in tables of a full file" "Table before the first equation:|Table after equation 1, X1 = X1:" \
        "$(grep ^Table "$out" | paste -sd '|')"
    # The words are those of the file, and sharerun says where it is full.
    run input "$file"
    same "status of input of a full file" "0" "$status$(<"$err")"
    sharerun_ends "eq 2 refused 8"
    # Full at once, with a variable in no group.
    sed -i '/^X1 = X1$/d; /^0*11$/d' "$file"
    run pairs "$file"
    same "a file that is full at once" "2  $file: X16 is in no group: it counts as known" "$status $(<"$out") $(head -n 1 "$err")"
    same "what was known before" "    Before it answers are given (--after 0), from what was known before the first equation:" "$(sed -n 7p "$err")"
    same "what was known before" "    known: X16" "$(tail -n 1 "$err")"
}
