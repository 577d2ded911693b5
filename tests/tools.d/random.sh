# shellcheck shell=bash disable=SC2154 # the names are those of tests/tools
# Random files and bytes.

# ---- Random files

# A sanitizer that is not in force would find nothing: program $1, with a fault of its kind, must end by its report.
reports() {
    gcc "${sanitize[@]}" -include stdlib.h -x c - -o "$built/probe" <<<"$1"
    status=0
    "$built/probe" 2>"$err" || status=$?
    same "the sanitizers on $1" 99 "$status"
}

# File $1 of the folder gives its words, after each equation the answers of the plain sets of groups, and the form of its last
# table. Where an equation has a variable on neither side, its words are those of `input --unify`.
good_file() {
    local point clash endless
    file=$folder/$1.txt
    run input "$file"
    if [[ -e $folder/$1.words ]]; then
        same "words of $file" "0 " "$status $(cmp "$folder/$1.words" "$out" 2>&1)"
    else
        unread "input $file"
        run input "$file" --unify
        same "words of $file" "0 " "$status $(cmp "$folder/$1.unify" "$out" 2>&1)"
        terms=$((terms + 1))
    fi
    run explain "$file"
    same "equations of $file that are explained" "$(grep -c '^Groups after' "$folder/$1.show" || true)" "$(grep -c '^Equation' "$out" || true)"
    clash=$(grep -c '^    clash: ' "$out" || true) endless=$(grep -c ', which no finite term solves: ' "$out" || true)
    same "status of explain of $file" "$status" $((clash + endless > 0))
    same "clashes, and equations without a finite solution, of $file" "$clash $endless" \
        "$("$program" form "$file" 2>&1 >/dev/null | awk '/ Equation [0-9]+ clashes: / { c++ } / has no finite solution: / { e++ } END { print c + 0, e + 0 }')"
    clashing=$((clashing + (clash > 0))) unsolved=$((unsolved + (endless > 0)))
    idle=$((idle + $(grep -c ', which says nothing: the table stays as it is$' "$out" || true)))
    for point in "$folder/$1".after.*; do
        run pairs "$file" --after "${point##*.}"
        same "answers of $file after ${point##*.}" "0 " "$status $(cmp "$point" "$out" 2>&1)"
        answers=$((answers + 1))
        [[ $(<"$out") != *"may not"* ]] || refusing=$((refusing + 1))
    done
    run show "$file"
    same "groups of $file" "0 " "$status $(cmp "$folder/$1.show" "$out" 2>&1)"
    good_reasons "$1"
    many=$((many + ($(head -n 1 < <(cat "$folder/$1".{words,unify} 2>"$scratch/ignored" | words)) > 16)))
    same_form "$file" "$folder/$1.words"
    good_audit "$1"
}

# What `audit` says of the table $1 of the folder is what the plain sets of groups have: which groups are missing and by which equation they belong
# there, which are too many, what made each variable ground, and which goals may run side by side. What the clause gives is audited too, and written.
good_audit() {
    local option
    run audit "$file" "$folder/$1.table"
    sed -nE 's/^(3 ok  groups: the [0-9]+ that the clause gives), in .*/\1/; s/^(6 ... goals): .*/\1/; s/^(Ship it|Do not ship it): .*/\1/
        s/^( {10}Equation [0-9]+) in line .*/\1/; s/^( {10}It is there from the start).*/\1/
        s/^( {6}ok  [A-Za-z0-9_]+: after equation [0-9]+) in line .*/\1/; s/^( {6}BAD [A-Za-z0-9_]+: no equation made it so).*/\1/
        /^[346] |^ {6}(missing: |too many: |and |ok |BAD )|^ {10}(Equation|It is there) |^(Ship|Do not ship) it$/p' "$out" >"$scratch/given"
    same "what audit says of $file" "" "$(diff "$folder/$1.audit" "$scratch/given" 2>&1)"
    same "the other lines of audit of $file" "1 ok 2 ok 5 ok" "$(sed -nE 's/^([125] (ok|BAD)) .*/\1/p' "$out" | xargs)"
    same "status of audit of $file" "$(tail -n 1 "$folder/$1.audit" | grep -c '^Do not')" "$status"
    lost=$((lost + $(grep -c '^      missing: ' "$out" || true))) added=$((added + $(grep -c '^      too many: ' "$out" || true)))
    shipped=$((shipped + (status == 0))) unmade=$((unmade + $(grep -c '^4 BAD' "$out" || true))) beside=$((beside + $(grep -c '^6 BAD' "$out" || true)))
    for option in "" --packed --text; do
        rm -f "$scratch/written"
        # shellcheck disable=SC2086 # no option is no argument
        run audit "$file" --write "$scratch/written" $option
        same "that audit $option of $file writes what it is to ship" "$status" $((1 - $([[ -e $scratch/written ]] && echo 1 || echo 0)))
        [[ -e $scratch/written ]] || continue
        run audit "$file" "$scratch/written" ${option:+$([[ $option == --text ]] || echo "$option")}
        same "what audit says of what it wrote of $file $option" "0 1" "$status $(grep -cE '^3 ok  groups: (none, as the clause|the [0-9]+ that the clause) gives' "$out")"
    done
}

# What `why` says of file $1 begins as the plain sets of groups have it. The entries that it names are of the table before the equation that it
# names, unless that is one found in two terms, between whose tables no command shows any.
good_reasons() {
    local first second said
    "$program" tables "$file" >"$scratch/tables" 2>"$scratch/ignored"
    : >"$scratch/given"
    while read -r first _ second said; do
        run why "$file" "$first" "${second%:}"
        same "status of why $file $first ${second%:}" "$([[ $said == "may run "* ]] && echo 0 || echo 1)" "$status"
        sed -nE 's/^(Equation [0-9]+) in line .*, made them share\. .* joined this group:$/\1 made them share:/
            s/^(They shared .* by equation [0-9]+) in line .* joined this group:$/\1:/; 1,3p' "$out" >>"$scratch/given"
        grep -q '\. In it .* joined this group:$' "$out" ||
            same "the entries of why $file $first ${second%:}" "" "$(sed -n '4,$p' "$out" | grep '^    ' | grep -vxFf "$scratch/tables" || true)"
        reasons=$((reasons + $(grep -cE '^(Equation|They share)' "$out" || true)))
    done < <(grep ' run side by side ' "$folder/$1.why")
    same "what why says of $file" "" "$(diff "$folder/$1.why" "$scratch/given" 2>&1)"
}

# The last run, $1, had no output, the status 2 and said that sharerun does not read an equation, at its place; before that it may have
# told of variables in no group.
unread() {
    sed -i '/ is in no group: it counts as known$/d' "$err"
    told_place "$1"
    same "what $1 says" 1 "$(head -n 1 "$err" | grep -c ': sharerun does not read equation [0-9]*: neither side of it is a variable\.$')"
}

# The form of the file $1, plain and packed, has the entries that sharerun prints last or, where it has no words $2 for that,
# those of the last table.
same_form() {
    local due option
    if [[ -e $2 ]]; then
        due=$("$program" input "$1" 2>"$scratch/ignored" | "$sharerun" |
            awk 'NR == 1 { vars = $1 " " $2 } / / { text = vars; next } { text = text "\n" $0 } END { print text }')
    else
        due=$("$program" form "$1" 2>"$scratch/ignored" | words | sed -n '1s/^/vars /p'
            "$program" tables "$1" 2>"$scratch/ignored" | awk '/^Table/ { text = ""; next } $1 ~ /^[01*]+$/ { text = text $1 "\n" } END { printf "%s", text }')
    fi
    for option in "" --packed; do
        # shellcheck disable=SC2086 # no option is no argument
        same "the form $option of $1 as text" "$due" \
            "$("$program" form "$1" $option 2>"$scratch/ignored" | "$program" text - $option)"
    done
}

# The last run, of a changed file, had no output, the status 2 and a message with a place that is in the file.
told_place() {
    local said whole line column
    mapfile -t said <"$err"
    mapfile -t whole <"$file"
    same "status of $1" 2 "$status"
    [[ ! -s $out ]] || same "output of $1" "" "$(<"$out")"
    [[ ${said[0]} =~ ^$file:([1-9][0-9]*):([1-9][0-9]*):\ .*\.$ ]] || same "the message of $1" "with a place" "${said[0]}"
    line=${BASH_REMATCH[1]} column=${BASH_REMATCH[2]}
    same "the place ${said[0]}" 1 $((line <= ${#whole[@]} && column <= ${#whole[line - 1]} + 1))
    [[ ${said[2]} =~ ^\ {4}[[:blank:]]*\^+$ && ${said[3]} =~ ^\ {4}Expected:\ .*\.$ ]] || same "the message of $1" "its four lines" "${said[*]}"
}

# A changed file is either taken, and then sharerun takes its words too unless it does not read an equation, or told with its
# place; then no command answers.
bad_file() {
    local LC_ALL=C
    file=$folder/$1.bad
    run input "$file"
    if ((status == 0)) || grep -q ': sharerun does not read ' "$err"; then
        taken=$((taken + 1))
        if ((status == 0)); then
            same "what sharerun says of the words of $file" "" "$("$sharerun" <"$out" | grep refused || true)"
        else
            unread "input $file"
        fi
        for command in tables show form "input --unify"; do
            # shellcheck disable=SC2086 # the words are the arguments
            run $command "$file"
            same "status of $command of $file" 0 "$status"
        done
        run explain "$file"
        same "status of explain of $file" 1 $((status < 2))
        return
    fi
    told=$((told + 1))
    told_place "input $file"
    for command in pairs tables show form explain "input --unify"; do
        # shellcheck disable=SC2086
        run $command "$file"
        told_place "$command $file"
    done
    for command in apart why; do
        run "$command" "$file" - -
        told_place "$command $file"
    done
}

random_files() {
    local folder=$scratch/random i answers=0 refusing=0 terms=0 clashing=0 unsolved=0 idle=0 reasons=0 many=0 taken=0 told=0 lost=0 added=0 shipped=0 unmade=0 beside=0
    mkdir -p "$folder"
    gcc "${strict[@]}" "${sanitize[@]}" tests/tools.d/files.c -o "$built/files"
    "$built/files" "$folder" 80 "$1"
    for ((i = 0; i < 80; i++)); do
        good_file "$i"
        bad_file "$i"
    done
    file=$scratch/file
    # Files of each kind were among them.
    same "random answers, with some no, files of two terms, with clashes, with equations that never hold, equations that say nothing, reasons, \
files of more than 16 variables, and changed files taken and told: $answers $refusing $terms $clashing $unsolved $idle $reasons $many $taken $told" 1 \
        $((answers > 160 && refusing > 40 && terms > 14 && clashing > 4 && unsolved > 4 && idle > 4 && reasons > 40 && many > 14 && taken > 10 && told > 40))
    same "groups lost and added, and tables to be shipped, with ground variables that nothing made so, and with goals side by side that may not be: \
$lost $added $shipped $unmade $beside" 1 $((lost > 40 && added > 40 && shipped > 5 && unmade > 20 && beside > 5))
}

# Bytes of any kind: the program must end by itself, with no report of a sanitizer, and say something.
random_bytes() {
    local i
    for ((i = 0; i < 40; i++)); do
        { ((i % 2)) || printf 'vars 3\n'; head -c $((i * 3)) <(any_bytes "$i"); } >"$file"
        run pairs "$file"
        same "status of random bytes $i: $(tail -n 3 "$err")" 1 $((status == 0 || status == 2))
        run explain
        same "status of explain of random bytes $i" 1 $((status < 2))
        for arguments in "$file" "examples/parish.txt $file"; do
            # shellcheck disable=SC2086 # the words are the arguments
            run audit $arguments
            same "status of audit $arguments of random bytes $i: $(tail -n 3 "$err")" 1 $((status < 3))
        done
        for option in "" --packed; do
            { printf '%b' "\\x$(printf %x $((i % 36)))\\x0\\x$((i % 3))\\x0" && head -c $((i % 17)) <(any_bytes "$i"); } >"$file"
            # shellcheck disable=SC2086
            run text "$file" $option
            same "status of text $option of random bytes $i: $(tail -n 3 "$err")" 1 $((status == 0 || status == 2))
            # shellcheck disable=SC2086
            run audit examples/parish.txt "$file" $option
            same "status of audit $option of random bytes $i: $(tail -n 3 "$err")" 1 $((status < 2))
        done
    done
}

# Bytes from a generator of its own, the same ones each time.
any_bytes() { LC_ALL=C awk -v seed="$1" 'BEGIN { srand(seed); for (i = 0; i < 200; i++) printf "%c", int(rand() * 256) }'; }
