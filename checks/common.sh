# What the checks share: where the repository is, a folder for trials, and how a check tells and ends.
# shellcheck shell=bash disable=SC2034
top=$(cd "$(dirname "${BASH_SOURCE[0]}")/.." && pwd)
room=$(mktemp -d)
trap 'rm -rf "$room"' EXIT
failed=0

passes() {
    echo "ok: $*"
}

fails() {
    echo "FAILED: $*"
    failed=1
}

# none WHAT LIST: the list is empty.
none() {
    if [[ -z $2 ]]; then
        passes "no $1"
    else
        fails "$1:"
        echo "$2"
    fi
}
