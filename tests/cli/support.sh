# shellcheck shell=sh
# For tests/cli/run and tests/page: a directory for the files of a test, and what a test says.

work=$(mktemp -d) || exit 2
trap 'rm -rf "$work"' EXIT
trap 'exit 2' HUP INT TERM
passed=0
failed=0

pass() { passed=$((passed + 1)); }

# bad WHAT..: a test failed. Where FIRST_FAILURE_ENDS is not empty, all ends here.
bad() {
    failed=$((failed + 1))
    printf 'FAILED: %s\n' "$*"
    [ -z "${FIRST_FAILURE_ENDS:-}" ] || exit 1
}

skip() { printf 'skipped: %s\n' "$*"; }

# holds WHAT COMMAND..: the command must succeed.
holds() {
    what=$1
    shift
    if "$@"; then pass; else bad "$what"; fi
}

# verdict NAME: the last line of the tests, and their status.
verdict() {
    echo "$1: $passed passed, $failed failed"
    [ "$failed" -eq 0 ]
}
