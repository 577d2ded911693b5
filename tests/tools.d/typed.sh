# shellcheck shell=bash
# Types the commands of the file $1 again, the lines with $ before them, in its folder and with the programs of the folder $2. Below each stand
# its message, its output and its status.
typed() {
    local line status printed
    printed=$(mktemp)
    while IFS= read -r line; do
        status=0
        echo "$line"
        (cd "${1%/*}" && PATH=$2:$PATH bash -o pipefail -c "${line#\$ }") 2>&1 >"$printed" </dev/null || status=$?
        cat "$printed"
        echo "status $status"
    done < <(grep '^\$ ' "$1")
    rm -f "$printed"
}
