# shellcheck shell=bash disable=SC2154 # the names are those of tests/tools
# The stored cases: the folder tests/tools.d/cases/COMMAND has for each case its input NAME.txt and NAME.out, what is typed and what comes of it.

# The commands may use `words`, which writes the 16-bit words of an output, `numbers`, which writes its bytes as numbers, and `bytes`, which writes
# the bytes whose numbers are in a file. Three examples are stored in the same way.
stored_cases() {
    local folder=tests/tools.d/cases bin=$scratch/bin case command
    mkdir -p "$bin"
    ln -sf "$PWD/$program" "$bin/sharetext"
    ln -sf "$(realpath "$sharerun")" "$bin/sharerun"
    export -f words numbers bytes
    same "the inputs of the stored cases" "$(printf '%s\n' "$folder"/*/*.out | sed 's/out$/txt/')" "$(printf '%s\n' "$folder"/*/*.txt)"
    for case in "$folder"/*/*.out examples/marriage.out examples/godparents.out examples/release.out; do
        same "the case $case" "" "$(typed "$case" "$bin" | diff "$case" - 2>&1)"
    done
    for command in $(usage | sed 's/.*sharetext //; s/ .*//' | grep -v '^-'); do
        same "that $command has stored cases" 1 $(($(cat "$folder/$command"/*.out | grep -c "^\$ sharetext $command ") > 1))
    done
}
