# What the scripts of test/ and bench/ share. A script sets `suite` to its name and `room` to a folder of its own, and reads this file.
# shellcheck shell=sh
: "${suite:?}"
passed=0
failed=0

# absolute FILE: its path from any folder.
absolute() {
    echo "$(cd "$(dirname "$1")" && pwd)/$(basename "$1")"
}

# in_memory KILOBYTES: has temporary files made in memory where there is so much room, and TMPDIR names no other place. What is tested
# is what happens to processes, not to disks.
in_memory() {
    free=$(df -Pk /dev/shm 2> /dev/null | awk 'NR == 2 { print $4 }')
    if [ -z "${TMPDIR:-}" ] && [ -w /dev/shm ] && [ "${free:-0}" -gt "$1" ]; then
        TMPDIR=/dev/shm
        export TMPDIR
    fi
}

pass() {
    passed=$((passed + 1))
}

# fail NAME: counts a failure, and names it.
fail() {
    failed=$((failed + 1))
    echo "$suite: FAILED: $1"
}

# holds NAME COMMAND..: whether the command succeeds; if not, what it prints.
holds() {
    name=$1
    shift
    if "$@" > "${room:?}/printed" 2>&1; then
        pass
    else
        fail "$name"
        head -n 40 "$room/printed"
    fi
}

# counted: prints the last line of a suite. Its status is 0 if nothing failed.
counted() {
    echo "$suite: $passed passed, $failed failed"
    [ "$failed" -eq 0 ]
}

# counted_in FILE STATUS: prints what a program printed that counts by itself; its last line becomes that of the suite. The status is
# the program's, and 1 if it did not come to its last line.
counted_in() {
    sed '$d' "$1"
    last=$(tail -n 1 "$1")
    case $last in
        *' passed, '*' failed') echo "$suite: $last" ;;
        *)
            echo "$last"
            echo "$suite: 0 passed, 1 failed"
            return 1
            ;;
    esac
    return "$2"
}
