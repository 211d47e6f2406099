# shellcheck shell=sh
# What the scripts of the tests share. A script sets test_name, the word that its lines begin with,
# and then reads this file.
test_name=${test_name:-tests}

say() { echo "$test_name: $*"; }
skip() { say "skipped: $*"; }

# stop WHY..: the test has failed, and the script ends.
stop() {
    echo "$test_name: FAILED: $*" >&2
    exit 1
}

# holds WHAT COMMAND..: the command must succeed.
holds() {
    what=$1
    shift
    "$@" || stop "$what"
}

# quiet LOG COMMAND..: what the command prints goes to a file, and is shown if the command fails.
quiet() {
    quiet_log=$1
    shift
    "$@" >"$quiet_log" 2>&1 && return
    cat "$quiet_log"
    return 1
}

# The shell scripts of the project: those named so, and those whose first line asks for a shell.
shell_scripts() {
    find .ci bench cli examples tests tools -type f 2>/dev/null | LC_ALL=C sort |
        while read -r file; do
            case ${file##*/} in
            *.sh | *.bash) echo "$file" ;;
            *.*) ;;
            *)
                read -r first_line <"$file" || continue
                case $first_line in '#!'*sh) echo "$file" ;; esac
                ;;
            esac
        done
}
