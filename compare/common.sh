# What the scripts of this folder begin with, each of which is run from the top of the repository: a folder for its files,
# and the count of what passed and failed.

if ! command -v sqlite3 >/dev/null; then
    echo "the program sqlite3 is not on the PATH"
    echo "0 passed, 1 failed"
    exit 1
fi

folder=$(mktemp -d) || exit 1
trap 'rm -rf "$folder"' EXIT

passed=0
failed=0

# The files with what is wanted and what was answered.
wanted="$folder/wanted"
answer="$folder/answer"

# build CRATE WORD..: proves and builds a program, unless BUILT tells that this was just done, and runs it on these words
# and nothing on standard input. Where that fails, nothing is compared.
build() {
    crate=$1
    shift
    if ! { test -n "$BUILT" || python3 -B gate/build.py "$crate"; } >"$folder/run.log" 2>&1 ||
        ! (cd "crates/$crate" && "out/$crate" "$@") </dev/null >>"$folder/run.log" 2>&1; then
        cat "$folder/run.log"
        echo "0 passed, 1 failed"
        exit 1
    fi
}

# sizes SIZE..: these page sizes, the first alone where SMALL asks for few files.
sizes() {
    if test -n "$SMALL"; then
        echo "$1"
    else
        echo "$@"
    fi
}

# pass, fail WHAT: counts, and says what failed and where the answer isn't as wanted.
pass() {
    passed=$((passed + 1))
}

fail() {
    failed=$((failed + 1))
    echo "$1"
    diff "$wanted" "$answer" | cut -c 1-1000 | head -n 10
}

# finish: the last line, and the exit status.
finish() {
    echo "$passed passed, $failed failed"
    test "$failed" -eq 0
}
