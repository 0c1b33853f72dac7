# shellcheck shell=bash
# What the checks in shell share: each case is counted, one that fails has a line, and the last line
# is NAME: N passed, M failed, and `, K skipped` where there are any. tests/expect.py is the same for
# python3. A script reads it with `. tests/expect.sh`, and ends with `finish`.
check_name=$(basename "$0")
passed=0 failed=0 skipped=0

pass() {
    passed=$((passed + 1))
}

# Counts a case that fails: `fail TEXT` says what it is, and what was found.
fail() {
    failed=$((failed + 1))
    echo "$check_name, $1"
}

# Compares: `expect NAME FOUND WANTED`.
expect() {
    if [ "$2" = "$3" ]; then
        pass
    else
        fail "$1: '${2:0:200}', and not '${3:0:200}'"
    fi
}

# Counts a case that cannot be tried here: `skip NAME WHAT_IS_MISSING`.
skip() {
    skipped=$((skipped + 1))
    echo "$check_name, $1: skipped: $2"
}

# Whether these commands are installed. Where one is not, the case is skipped, and its line says
# what to install: `has NAME COMMAND...`.
has() {
    local name=$1 command
    shift
    for command; do
        command -v "$command" >/dev/null && continue
        skip "$name" "there is no $command; .ci/packages --install"
        return 1
    done
}

# The line of counts.
counts() {
    echo "$passed passed, $failed failed$([ "$skipped" = 0 ] || echo ", $skipped skipped")"
}

finish() {
    echo "$check_name: $(counts)"
    exit $((failed > 0))
}
