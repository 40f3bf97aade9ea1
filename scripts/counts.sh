# shellcheck shell=sh
# Sourced by the scripts that count tests, at the top of the repository: `passed` and `failed`, and what adds to them.
passed=0
failed=0
logs=$(mktemp -d) || exit 1
trap 'rm -rf "$logs"' EXIT

# one NAME COMMAND..: a test that passes if the command succeeds
one() {
    name=$1
    shift
    if "$@"; then
        echo "ok: $name"
        passed=$((passed + 1))
    else
        echo "FAILED: $name"
        failed=$((failed + 1))
    fi
}

# counted NAME COMMAND..: a command whose last line is 'N passed, M failed'
counted() {
    name=$1
    shift
    { "$@"; echo $? >"$logs/status"; } 2>&1 | tee "$logs/out"
    status=$(cat "$logs/status")
    line=$(tail -n 1 "$logs/out")
    case $line in
    [0-9]*' passed, '[0-9]*' failed')
        passed=$((passed + ${line%% *}))
        line=${line#* passed, }
        failed=$((failed + ${line%% *}))
        [ "$status" = 0 ] || [ "${line%% *}" != 0 ] || failed=$((failed + 1))
        ;;
    *)
        echo "FAILED: $name gave no count (exit status $status)"
        failed=$((failed + 1))
        ;;
    esac
}

# cargo_tests PACKAGE: cargo's own tests of a package, counted one by one
cargo_tests() {
    cargo test --release --offline --locked -p "$1" >"$logs/cargo" 2>&1
    status=$?
    grep -v '^running\|^$' "$logs/cargo" | grep 'FAILED\|failed\|panicked\|^error\|test result' || cat "$logs/cargo"
    awk -v status="$status" '/^test result:/ { p += $4; f += $6 } END { if (status != 0 && f == 0) f = 1; print p + 0 " passed, " f + 0 " failed" }' "$logs/cargo"
    return "$status"
}

# built PACKAGE: builds a package
built() {
    cargo build --quiet --release --offline --locked -p "$1"
}

# due NAME COMMAND..: what the tests after it need; they are not run if it fails
due() {
    name=$1
    shift
    "$@" && return
    echo "FAILED: $name"
    failed=$((failed + 1))
    finish
}

# finish: the last line says how many passed and how many failed; the exit status is 0 only if none failed
finish() {
    echo "$passed passed, $failed failed"
    [ "$failed" = 0 ]
    exit
}
