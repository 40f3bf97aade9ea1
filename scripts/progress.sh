# shellcheck shell=sh
# Sourced by scripts/building.sh: what is shown of a build while it runs. A line for each crate that is proved; on a terminal also a line
# that is written anew each second, with what is being done.
# What is not assigned here is of building.sh: root, log, scratch, began.
# shellcheck disable=SC2154

# span SECONDS: a time as people write it
span() {
    if [ "$1" -lt 60 ]; then echo "$1 s"; else printf '%dm%02ds\n' $(($1 / 60)) $(($1 % 60)); fi
}

# crates_below CRATE: how many crates of crates.txt it needs, itself among them
crates_below() {
    awk -v top="$1" '
        function visit(name, i, n, names) {
            if (!(name in needs) || seen[name]++) return
            count++
            n = split(needs[name], names, " ")
            for (i = 1; i <= n; i++) visit(names[i])
        }
        { sub(/#.*/, "") }
        i = index($0, ":") { split(substr($0, 1, i - 1), head, " "); needs[head[1]] = substr($0, i + 1) }
        END { visit(top); print count }' crates.txt
}

# follow: shows the build until the script that has begun it says by TERM that it has ended, or is gone. Ctrl-C is for that script alone.
follow() {
    cd "$root" || exit
    total=$(crates_below wirdoku_c) count=0 shown=' ' over=''
    trap '' INT HUP
    trap 'over=yes' TERM
    while [ -z "$over" ] && alive "$$"; do
        show_proved
        show_now
        sleep 1 &
        wait "$!" || { kill "$!" && wait "$!"; } 2>/dev/null || true
    done
    show_proved
    ! on_terminal || printf '\r\033[K' >&2
}

on_terminal() {
    [ -t 2 ] && [ "${TERM-dumb}" != dumb ]
}

elapsed() {
    span $(($(date +%s) - began))
}

# What rt says of each crate once it is done with it: its name and `proved`, `before` if there was nothing to prove, or `not`. A line `== NAME`
# stands in front; the end of the log, which may be written at the moment, is believed only where it says that the crate is proved.
crates_told() {
    awk '
        function tell() { if (name != "" && name != "summary") print name, verdict }
        /^== [a-z0-9_]+$/ { tell(); name = $2; verdict = "before"; next }
        /^logic=proved / { verdict = "proved"; tell(); name = ""; next }
        !/^rt: / { verdict = "not" }' "$log"
}

# A line for each crate that was not told before.
show_proved() {
    while read -r name result; do
        case $shown in *" ${name:-/} "*) continue ;; esac
        [ -n "$name" ] || continue
        shown="$shown$name "
        case $result in
        not) tell "$name is not proved, $(elapsed) elapsed" && continue ;;
        before) result=', proved before' ;;
        *) result='' ;;
        esac
        count=$((count + 1))
        tell "[$count/$total] $name$result, $(elapsed) elapsed"
    done <<END
$(crates_told)
END
}

tell() {
    if on_terminal; then printf '\r\033[K%s\n' "$1" >&2; else echo "$1" >&2; fi
}

# The libraries that rt is building: it makes a folder first, and notes there at last what the library was built of.
crates_begun() {
    find crates/*/out/rlib -maxdepth 0 -newer "$scratch/begun" 2>/dev/null | while read -r library; do
        [ -f "$library/stamp" ] || echo "$library" | sed 's,^crates/\(.*\)/out/rlib$,\1,'
    done
}

# What is being done now: the crates that are being built, or what the steps say of themselves.
show_now() {
    on_terminal || return 0
    names=''
    for name in $(crates_begun); do
        case $shown in *" $name "*) ;; *) names="$names, $name" ;; esac
    done
    now=$(sed -n 's/^build-steps: now //p' "$log" | tail -n 1)
    [ -z "$names" ] || now="proving ${names#, }"
    printf '\r\033[K%s; %s elapsed' "${now:-beginning}" "$(elapsed)" >&2
}
