# shellcheck shell=sh
# Sourced by scripts/wirdoku, scripts/build-tool, scripts/build-steps, scripts/install and next/wirdoku, which name the top of the repository in
# `root` and the command's folder, tool or next, in `folder`: whether the command is built, and its build, by one call at a time, with progress
# on standard error.
: "${root:?}" "${folder:?}"
case $folder in
next) package=wirdoku-next stamp=rust-target/built-next sources='tool/Cargo.toml tool/build.rs tool/src next/Cargo.toml next/build.rs next/src' ;;
*) package=wirdoku stamp=rust-target/built sources='tool/Cargo.toml tool/build.rs tool/src' ;;
esac
# shellcheck source=scripts/progress.sh
. "$root/scripts/progress.sh"

log=$root/rust-target/build.log
lock=$root/rust-target/build.lock
# for temporary files of the steps; removed afterwards, and before the next build if this one was killed
scratch=$root/rust-target/build.tmp

say() {
    echo "wirdoku: $*" >&2
}

# alive PROCESS: whether it runs; one that was killed and that its parent has not asked for does not
alive() {
    [ -e "/proc/$1" ] && ! grep -q '^State:.*zombie' "/proc/$1/status" 2>/dev/null
}

# newer STAMP PATH..: those of the paths, and of what stands in the crates' folders, that are newer than a stamp; out/ is what rt writes there
newer() {
    than=$1
    shift
    find crates.txt "$@" -newer "$than"
    find crates -mindepth 2 -path 'crates/*/out' -prune -o -newer "$than" -print
}

# is_built: whether the command is there and no source is newer than its build
is_built() (
    cd "$root" && [ -x "rust-target/release/$package" ] && [ -f "$stamp" ] || return 1
    # shellcheck disable=SC2086
    [ -z "$(newer "$stamp" Cargo.toml Cargo.lock $sources)" ]
)

# is_proved: whether the library's archive is there and no crate is newer than its proof
is_proved() (
    cd "$root" && [ -f target/staticlib/libwirdoku.a ] && [ -f target/staticlib/proved ] || return 1
    [ -z "$(newer target/staticlib/proved)" ]
)

# build: brings library and command up to date. Ends the script with 6 if that fails, and with 128 and its number at a signal.
build() {
    steps='' follower='' waiter='' waited=''
    trap 'stopped 130' INT
    trap 'stopped 143' TERM
    trap 'stopped 129' HUP
    take_lock
    if [ -z "$waited" ] || ! is_built || ! is_proved; then
        install_missing
        run_steps
    fi
    trap - INT TERM HUP
    # the command that runs next must not hold the lock
    exec 9>&-
}

# Waits until no other call is building. The kernel takes the lock back when the processes that hold it end, however they do.
take_lock() {
    { mkdir -p "$root/rust-target" && touch "$lock"; } || exit 6
    exec 9>>"$lock"
    if ! flock -n 9; then
        say "waiting for $(cat "$lock"), which is building; its log is $log"
        # in the background, since the shell does not come to a trap before a command ends
        flock 9 &
        waiter=$!
        wait "$waiter" || exit 6
        waiter='' waited=yes
    fi
    echo "process $$, begun at $(date +%H:%M:%S)" >"$lock"
}

install_missing() {
    if ! is_proved && ! command -v rt >/dev/null 2>&1; then
        say "the Rattle toolchain (rt) is not on the path; README.md says where it comes from"
        exit 6
    fi
    sh "$root/scripts/packages" cargo rustc 9>&- || exit 6
    # The build needs no solver, so it goes on without one.
    command -v cadical >/dev/null 2>&1 || command -v minisat >/dev/null 2>&1 || command -v picosat >/dev/null 2>&1 ||
        sh "$root/scripts/packages" cadical 9>&- || true
}

run_steps() {
    rm -rf "$scratch"
    mkdir "$scratch"
    : >"$scratch/begun"
    : >"$log"
    began=$(date +%s)
    if is_proved; then
        say "building the command; log: $log"
    else
        say "proving the library and building the command, which takes minutes; log: $log"
    fi
    # in a session of their own, so that all processes that the steps begin can be ended together
    setsid sh "$root/scripts/build-steps" "$$" "$folder" </dev/null >"$log" 2>&1 &
    steps=$!
    follow 9>&- &
    follower=$!
    status=0
    wait "$steps" || status=$?
    end_steps
    [ "$status" = 0 ] || failed
    say "built in $(span $(($(date +%s) - began)))"
}

# runs GROUP: whether a process of the group is still there, apart from those that have ended and are not yet asked for
runs() {
    cat /proc/[0-9]*/stat 2>/dev/null | sed 's/^.*) //' | awk -v group="$1" '$3 == group && $1 != "Z" { found = 1 } END { exit !found }'
}

# Ends what is left of the steps and of the progress, and removes their temporary files.
end_steps() {
    kill -s KILL -- "-$steps" 2>/dev/null || true
    wait "$steps" 2>/dev/null || true
    tries=20
    while [ "$tries" -gt 0 ] && runs "$steps"; do
        sleep 0.1
        tries=$((tries - 1))
    done
    kill "$follower" 2>/dev/null || true
    wait "$follower" 2>/dev/null || true
    rm -rf "$scratch"
}

failed() {
    say "could not be built; the log ends with:"
    tail -n 15 "$log" | cut -c 1-300 | sed 's/^/    /' >&2
    say "the whole log: $log"
    exit 6
}

# stopped STATUS: at a signal. rt keeps what it has proved.
stopped() {
    trap '' INT TERM HUP
    [ -z "$waiter" ] || kill "$waiter" 2>/dev/null || true
    if [ -n "$steps" ]; then
        end_steps
        say "stopped; the next call goes on from here"
    fi
    exit "$1"
}
