# shellcheck shell=bash disable=SC2154 # the names are those of tests/tools
# Goals that a file names, and the audit of a table: what it writes and what it cannot do. The stored cases have what it says.

# ---- Goals

named="the name of the goal, with a small letter first and then letters, digits and underscores, as in: goal date_baptism: Baptism, Parish"
of_goal="the variables of the goal, or - for none"
further="a further variable, with a capital letter or an underscore first"

# Lines goal count for nothing in the words, wherever they stand.
goal_words() {
    writes "vars 3\ngoal a: X1\n100\ngoal b:X3,X2\nX1 = f(X2).\n goal c : X1 X2 , X3 % all\nX3 = a\ngoal goal: -" \
        "3 1 7 1 2 3 1 3 2 1 32785 2 32800"
}

# An equation may begin with the word, and a file may name 64 goals.
goal_equations() {
    writes "vars 2\nfree\ngoal = X1.\ngoal(X1) = X2." "2 2 3 3 1 2 2 3 1 2 1 2 32784 32785 1"
    printf 'vars 2\nfree\n%s\n' "$(lines 64 'goal g&: X1')" >"$file"
    run pairs "$file"
    same "the pairs of 64 goals" "0 2016" "$status $(grep -c "^g[0-9]* and g[0-9]*: $no" "$out")"
    echo 'goal one_more: -' >>"$file"
    fails "65 goals" 67:1:4 "There are more than 64 goals." "at most 64 goals"
}

wrong_goal_lines() {
    wrong 'vars A B\ngoal' 2:5:1 "The line ends too early." "$named"
    wrong 'vars A B\ngoal Date: A' 2:6:4 "'Date' cannot stand here." "$named"
    wrong 'vars A B\ngoal : A' 2:6:1 "':' cannot stand here." "$named"
    wrong 'vars A B\ngoal 1st: A' 2:6:3 "'1st' cannot stand here." "$named"
    wrong 'vars A B\ngoal date' 2:10:1 "The line ends too early." "':' and then the variables of the goal"
    wrong 'vars A B\ngoal date A' 2:11:1 "'A' cannot stand here." "':' and then the variables of the goal"
    wrong 'vars A B\ngoal date:' 2:11:1 "The line ends too early." "$of_goal"
    wrong 'vars A B\ngoal date: % A' 2:12:1 "The line ends too early: a comment begins here." "$of_goal"
    wrong 'vars A B\ngoal date: a' 2:12:1 "'a' cannot stand here." "$of_goal"
    wrong 'vars A B\ngoal date: A, C' 2:15:1 "C is not one of the variables of line 1." "A or B"
    wrong 'vars A B\ngoal date: A, A' 2:15:1 "A stands twice in this line." "each variable once"
    wrong 'vars A B\ngoal date: A,' 2:14:1 "The line ends too early." "$further"
    wrong 'vars A B\ngoal date: A.' 2:13:1 "'.' cannot stand here." "$further, or the end of the line"
    wrong 'vars A B\ngoal date: - A' 2:14:1 "'A' cannot stand here." "the end of the line: a goal with - has no variable"
    wrong 'vars A B\ngoal date: A\n\ngoal date: B' 4:6:4 "date is the name of a goal already." "a name of its own for each goal"
    wrong 'goal date: A\nvars A B' 1:1:4 "The file does not begin with its variables." "a line such as: vars 3, or: vars Baptism Wedding Parish"
}

# apart, pairs and why take and name the goals of a file, beside lists of variables.
named_goals() {
    local after="after equation 1, Baptism = f(Wedding)" goals="Expected: date, note or log, variables with commas between them, or - for no variable."
    printf 'vars Baptism Wedding Parish\nfree\ngoal date: Baptism, Parish\ngoal note: Wedding\ngoal log: -\nBaptism = f(Wedding).\n' >"$file"
    asked 1 "date and note: $no $after $shared" "" apart "$file" date note
    asked 0 "date and note: $yes before the first equation" "" apart "$file" date note --after 0
    asked 1 "Wedding and date: $no $after $shared" "" apart "$file" Wedding date
    asked 0 "log and no variable: $yes $after" "" apart "$file" log -
    asked 0 "date and note: $no $after $shared
date and log: $yes $after
note and log: $yes $after" "" pairs "$file"
    asked 1 "date and note: $no $after $shared
Equation 1 in line 6, Baptism = f(Wedding), made them share. It joined this group:
    110  Baptism, Wedding
Before it there was a group with Baptism inside this one, in this entry:
    100  Baptism
and one with Wedding, in this entry:
    010  Wedding" "" why "$file" date note
    asked 1 "date and date: $no before the first equation $shared
Both goals have Baptism: what is not known in it, they share.
They share from the start, by this group:
    100  Baptism
It is in this entry of the table before the first equation:
    100  Baptism" "" why "$file" date date --after 0
    for command in apart why; do
        asked 2 "" "sharetext: goal 2, column 1: dates is not one of the goals of $file.
    dates
    ^^^^^
    $goals" "$command" "$file" date dates
        asked 2 "" "sharetext: goal 1, column 1: date,Wedding is not one of the goals of $file.
    date,Wedding
    ^^^^^^^^^^^^
    $goals" "$command" "$file" date,Wedding note
    done
    sed -i '/note\|log/d' "$file"
    asked 0 "" "$file: There is one goal, and so no pair." pairs "$file"
    # Where a file names no goal, a small letter is no beginning of one.
    sed -i '/goal/d' "$file"
    asked 2 "" "sharetext: goal 1, column 1: 'date' cannot stand here.
    date
    ^^^^
    Expected: Baptism, Wedding or Parish, with commas between them, or - for no variable." apart "$file" date Wedding
}

# ---- What the audit writes

# With the options $1 the audit writes the bytes $2, as numbers; it then takes them as a table.
writes_table() {
    rm -f "$scratch/table"
    # shellcheck disable=SC2086 # the words are the arguments
    run audit "$file" --write "$scratch/table" $1
    same "status of audit --write $1" "0" "$status$(<"$err")"
    same "the last line of audit --write $1" "Ship it: the table that the clause gives is in $scratch/table." "$(tail -n 1 "$out")"
    same "what audit --write $1 writes" "$2" "$(numbers <"$scratch/table")"
}

written_tables() {
    cp examples/parish.txt "$file"
    writes_table "" "3 0 1 0 7 0 3 0"
    writes_table "--packed" "3 0 1 0 4"
    writes_table "--text" "$(printf 'vars Baptism Wedding Parish\n110\n' | numbers)"
    writes_table "--after 1" "3 0 2 0 7 0 3 0 4 0 3 0"
    writes_table "--packed --after 1" "3 0 2 0 9 22"
    # Without names the line vars has their number; a _ has no position.
    printf 'vars 2\nfree\nX1 = f(X2, _).\n' >"$file"
    writes_table "" "2 0 1 0 1 0 1 0"
    writes_table "--text" "$(printf 'vars 2\n1*\n' | numbers)"
    printf 'vars 17\n*%s1\n' "$(times 15 '*')" >"$file"
    writes_table "" "17 0 1 0 0 0 1 0 0 0 1 0"
    # Nothing is written where a line is BAD, or nothing can be.
    printf 'vars A B\n10\n' >"$file"
    rm -f "$scratch/table"
    run audit "$file" --write "$scratch/table"
    same "a table that is not to be shipped" "1 no Do not ship it: nothing makes B ground (line 4). Correct the clause first." \
        "$status $([[ -e $scratch/table ]] && echo yes || echo no) $(tail -n 1 "$out")"
    printf 'vars A B\nfree\n' >"$file"
    for place in "$scratch/none/table:No such file or directory" "$scratch:Is a directory" "/dev/full:No space left on device"; do
        run audit "$file" --write "${place%:*}"
        same "audit --write ${place%:*}" "2 Do not ship it: ${place%:*} could not be written. ${place%:*}: The file cannot be written: ${place##*:}." \
            "$status $(tail -n 1 "$out") $(<"$err")"
    done
}

# ---- What it reads

# A mistake in either file is told at its place, and there is no output.
wrong_audits() {
    local due
    printf 'vars A B\n10\n0l\n' >"$scratch/table"
    printf 'vars A B\nfree\n' >"$file"
    due=$(mistake "$scratch/table" 3 2 1 "The letter 'l' cannot stand here." "0, 1 or * for B, position 2 of 2")
    asked 2 "" "$due" audit "$file" "$scratch/table"
    asked 2 "" "$due" audit "$scratch/table" "$file"
    printf 'vars A B\n1*\nA = B.\n' >"$scratch/table"
    asked 2 "" "$(mistake "$scratch/table" 3 1 5 "A table that is to be shipped has no equations." \
        "entries alone, as \`sharetext audit FILE --write OUT --text\` writes them")" audit "$file" "$scratch/table"
    printf '\xff\xfev\0a\0' >"$scratch/table"
    run audit "$file" "$scratch/table"
    same "a table in UTF-16" "2  $scratch/table:1:1: The file is in UTF-16." "$status $(<"$out") $(head -n 1 "$err")"
    asked 2 "" "$scratch/none: The file cannot be read: No such file or directory." audit "$file" "$scratch/none"
    asked 2 "" "$scratch: The file cannot be read: Is a directory." audit "$file" "$scratch"
    # A byte order mark, CRLF and comments are those of any readable file; goals and free are taken.
    printf '\xef\xbb\xbfvars A, B # here\r\ngoal a: A\r\nfree\r\n' >"$scratch/table"
    run audit "$file" "$scratch/table"
    same "a table with other line ends" "0 1 ok  variables: A, B, as in the clause" "$status $(grep ^1 "$out")"
    same "its groups" "3 ok  groups: the 2 that the clause gives, in the same entries" "$(grep ^3 "$out")"
    # Where one of the two has no names, the number of variables is compared.
    sed -i 's/^vars A B$/vars 2/' "$file"
    run audit "$file" "$scratch/table"
    same "names against a number" "0 1 ok  variables: A, B, as many as in the clause" "$status $(grep ^1 "$out")"
    printf 'vars A B C\n' >"$scratch/three"
    run audit "$file" "$scratch/three"
    same "three names against a number" "1 1 BAD variables: A, B, C; but the clause has 2: a table cut for another clause" "$status $(grep ^1 "$out")"
    # Either file may be standard input.
    run audit - "$scratch/table"
    same "a clause from standard input" "0 Ship it: it has exactly the groups that the clause gives." "$status $(tail -n 1 "$out")"
    run audit "$scratch/table" -
    same "a table from standard input" "0 Ship it: it has exactly the groups that the clause gives." "$status $(tail -n 1 "$out")"
}

# ---- Tables that differ in very many groups

# Random entries of 32 variables, 160 of them, in a file that begins with $2; $1 is where they are drawn from. Joined they are too many.
many_entries() {
    printf '%b' "$2"
    awk -v seed="$1" 'BEGIN { srand(seed); for (k = 0; k < 160; k++) { s = ""
        for (i = 0; i < 32; i++) s = s (rand() < 0.75 ? "*" : rand() < 0.5 ? "0" : "1"); print s } }'
}

# Where not every part can be looked at, the audit says that there are at least so many, and what it lists is so: of each group some entry of one
# file covers it and none of the other.
at_least() {
    local way
    many_entries 1 'vars 32\n' >"$file"
    many_entries 2 'vars 32\n' >"$scratch/table"
    run audit "$file" "$scratch/table"
    same "status of an audit of very many groups" 1 "$status"
    same "groups that are missing and too many" 1 "$(grep -cE '^3 BAD groups: at least [0-9]+ missing, at least [0-9]+ too many$' "$out")"
    for way in missing "too many"; do
        same "the groups listed as $way" "20 1" "$(grep -c "^      $way: " "$out") $(grep -cE "^      and at least [0-9]+ more $way\$" "$out")"
        sed -n "s/^      $way: //p" "$out" | tr -d 'X ' >"$scratch/listed"
        same "that these are $way" "20" "$(awk -v reversed="$([[ $way == missing ]] || echo 1)" '
            function covers(entry, group, i, n, has, part) {
                n = split(group, part, ",")
                split("", has)
                for (i = 1; i <= n; i++) has[part[i]] = 1
                for (i = 1; i <= 32; i++) if (substr(entry, i, 1) == (i in has ? "0" : "1")) return 0
                return 1
            }
            FNR == 1 { file++ }
            file < 3 && FNR > 1 { entry[file, FNR] = $0; last[file] = FNR }
            file == 3 { for (f = 1; f < 3; f++) { in_file[f] = 0; for (k = 2; k <= last[f]; k++) if (covers(entry[f, k], $0)) in_file[f] = 1 }
                right += reversed ? !in_file[1] && in_file[2] : in_file[1] && !in_file[2] }
            END { print right }' "$file" "$scratch/table" "$scratch/listed")"
    done
}

# Random pairs of tables with many entries: line 3 is what all groups one by one have (tests/tools.d/tables.c).
random_tables() {
    local folder=$scratch/shipped i same=0 differ=0 full=0
    mkdir -p "$folder"
    gcc "${strict[@]}" "${sanitize[@]}" tests/tools.d/tables.c -o "$built/tables"
    "$built/tables" "$folder" 40 "$1"
    for ((i = 0; i < 40; i++)); do
        run audit "$folder/$i.txt" "$folder/$i.table"
        sed -nE 's/^(3 ok  groups): .*/\1/; /^3 |^ {6}(missing: |too many: |and [0-9]+ more )/p' "$out" >"$scratch/given"
        same "line 3 of audit of $folder/$i.txt" "" "$(diff "$folder/$i.audit" "$scratch/given" 2>&1)"
        same=$((same + $(grep -c '^3 ok' "$out" || true))) differ=$((differ + $(grep -c '^3 BAD' "$out" || true)))
        full=$((full + $(grep -c '^5 ok  other side: full' "$out" || true)))
    done
    same "pairs of tables with the same groups, with others, and with a change of side that is full: $same $differ $full" 1 \
        $((same > 5 && differ > 15 && full > 15))
}
