# shellcheck shell=bash disable=SC2154 # the names are those of tests/tools
# The help and the manual page: that they say the same, and that what they show is so.

# ---- Help and manual page

# Of standard input, each command of sharetext, with $ before it, prints what stands below it, up to another one or a blank line; it is run in the
# folder $1. `shown` counts them.
pasted() {
    local line indent="" command="" due=""
    while IFS= read -r line; do
        if [[ -n $command && ( $line == "" || $line == "$indent\$ "* ) ]]; then
            same "what is shown for $command" "$due" "$(cd "$1" && PATH=$scratch/bin:$PATH bash -c "$command; true" 2>&1)"
            command="" due=""
        fi
        if [[ $line =~ ^(\ *)\$\ (target/tools/)?(sharetext\ .*)$ ]]; then
            indent=${BASH_REMATCH[1]} command=${BASH_REMATCH[3]} shown=$((shown + 1))
        elif [[ -n $command ]]; then
            due+=${due:+$'\n'}${line#"$indent"}
        fi
    done < <(cat && echo)
}

# What the README shows can be pasted: its file, and its commands with what they print.
readme() {
    local shown=0
    sed -n '/^    vars Baptism/,/^$/p' README.md | sed '/^$/,$d' >"$file"
    gives "the file in the README" <<<"$example"
    same "message of the file in the README" "" "$(<"$err")"
    pasted . <README.md
    same "commands shown in the README: $shown" 1 $((shown > 2))
}

help_text() {
    local shown=0 version=--version
    : >"$file"
    asked 0 "$("$program" --help)" "" help
    for command in $commands; do
        asked 0 "$("$program" --help)" "" "$command" --help
    done
    "$program" --help >"$scratch/help"
    mkdir -p "$scratch/bin" "$scratch/pasted"
    ln -sf "$PWD/$program" "$scratch/bin/sharetext"
    # The file of the example, and its commands with what they print.
    sed -n '/^    vars /,/^$/s/^    //p' "$scratch/help" | sed '/^$/d' >"$scratch/pasted/parish.txt"
    same "the lines of the example in the help" 6 "$(wc -l <"$scratch/pasted/parish.txt")"
    cp "$scratch/pasted/parish.txt" "$file"
    gives "the file in the help" <<<"$example"
    pasted "$scratch/pasted" <"$scratch/help"
    same "commands shown in the help" 3 "$shown"
    if grep -q SHARING_VERSION_MAJOR include/sharing.h; then
        asked 0 "sharetext $(grep -oE 'SHARING_VERSION_(MAJOR|MINOR|PATCH)[ =]+[0-9]+' include/sharing.h | grep -oE '[0-9]+$' | paste -sd.)" "" --version
    else
        version=""
        asked 2 "" "$(usage)" --version
    fi
    same "the commands of the manual page" "$commands --help --version" \
        "$(sed -n '/^.SH SYNOPSIS/,/^.SH DESC/{s/\\-/-/g;s/^\\fBsharetext \([^ ]*\)\\fR.*/\1/p}' tools/sharetext.1 | xargs)"
    same "the commands of the help" "$commands help, --help${version:+ $version}" \
        "$(sed -n '/^Commands/,/^$/s/^  \([^ ].*\)/\1/p' "$scratch/help" | awk '{ print $1 == "help," ? $1 " " $2 : $1 }' | xargs)"
}

# Without blanks, which a page sets in its own way.
squeezed() { tr -d ' \n\t'; }

# The page renders without a warning, and each part of the help is in it, word by word.
manual_page() {
    local page part="" line parts=0
    command -v groff >/dev/null || { echo "groff is not there, which renders the manual page" >&2; exit 1; }
    same "warnings of groff" "" "$(groff -man -ww -z tools/sharetext.1 2>&1)"
    page=$(groff -man -Tascii -P-cbou tools/sharetext.1 | squeezed)
    while IFS= read -r line; do
        # A heading is in capitals there; a blank line ends a part.
        if [[ $line == '' || $line == [A-Z]* && ${#line} -lt 30 ]]; then
            [[ -z $line ]] || same "the heading $line" 1 "$(grep -cxiE "\.SH $line" tools/sharetext.1)"
            same "the manual page has: $part" 1 $(($([[ $page == *"$(squeezed <<<"$part")"* ]] && echo 1 || echo 0)))
            part="" parts=$((parts + 1))
        else
            part+="${line#usage: }"$'\n'
        fi
    done < <(cat "$scratch/help" && echo)
    same "parts of the help: $parts" 1 $((parts > 20))
    if command -v man >/dev/null; then
        same "what man shows" 1 "$(man -l tools/sharetext.1 2>/dev/null | grep -c 'sharetext apart FILE GOAL GOAL \[--after N\]')"
    fi
}
