# What check-record, sheet-record and show-record share: streams, options, the program, what is said. Each of them sources this, with its own name in
# `command` and its `usage`; the files are left as arguments.
# The program is proved and built first if it is missing or older than the crates.
# shellcheck shell=bash disable=SC2154,SC2034 # what is set here and there

# Says something on standard error, if that can be.
say() {
    printf '%s: %s\n' "$command" "$1" >&2 || true
}

# Says why there is no answer, and ends.
fail() {
    say "$1"
    exit 2
}

# A stream that is closed is opened on nothing, since the next file or pipe would take its number.
true 3>&2 || exec 2> /dev/null
{ true 3>&1; } 2> /dev/null || fail "standard output: is closed"
input=open
{ true 3<&0; } 2> /dev/null || { input=closed && exec < /dev/null; }

case ${1-} in
    -h | --help)
        printf '%s\n' "$usage" 2> /dev/null || fail "standard output: cannot be written"
        status=0
        exit
        ;;
    --) shift ;;
    -?*) fail "$1: no such option; --help says how it is used" ;;
esac
[ $# -gt 0 ] || set -- -
[ "$*$input" != -closed ] || fail "(standard input): is closed"

project=$(dirname "$(readlink -f "${BASH_SOURCE[0]}")")
crate=$project/crates/${command/-/_}
program=$crate/out/${command/-/_}
log=$project/target/$command.log

[ "$(uname -m)" = x86_64 ] || fail "this machine is $(uname -m), and the programs are built for x86-64"
run=(/dev/fd/8)

# Whether the program is there and nothing of the crates is newer; what rt makes of a crate, in its out/, does not count, nor that it makes that folder.
is_fresh() {
    [ -x "$program" ] &&
        [ -z "$(cd "$project" && find crates.txt crates -regex 'crates/[^/]*/out' -prune -o -newer "$program" \( -type f -o -path 'crates/*/*' \) -print -quit)" ]
}

# Proves and builds the program; rt runs it too, here on nothing. It gets the time of the start, so that a crate that changes meanwhile is newer.
build() {
    local began
    command -v rt > /dev/null || fail "rt, the command of the Rattle kit, is missing"
    began=$(date +%s.%N)
    { mkdir -p "$project/target" && : > "$log"; } 2> /dev/null ||
        fail "$project/target: cannot be written, and the program there is missing or older than the crates"
    say "proving and building the program, once: many minutes from nothing (log: $log)"
    if ! (cd "$crate" && rt run -- "${run[@]:1}") > "$log" 2>&1 < /dev/null; then
        tail -n 20 "$log" >&2 || true
        fail "the program could not be built; $log has all that was said"
    fi
    touch -d "@$began" "$program"
}

# Has the program open as 8. One build at a time: the lock is on the tree's folder itself, and the gate takes it for its own builds; once
# the program is open, a build that removes it does no harm.
open_program() {
    exec 9< "$project"
    flock -w 2 9 || { say "waiting until another build in $project ends" && flock 9; }
    is_fresh || build
    exec 8< "$program" 9<&-
}

# Runs the program on a file, or says why it cannot be opened; in a shell of its own.
ask() {
    LC_ALL=C
    [ "$1" = - ] || exec < "$1" || exit
    exec "${run[@]}"
}

# Runs a command that asks the program, to its end: `written` is what it wrote, `said` the last that it said, and the status is its own. What is
# said goes on a last line, with a point behind it, so that no line end is lost; bash finds that line at once from the back, and in a large sheet
# within seconds from the front.
hold() {
    local answer ended=0
    answer=$(
        ended=0
        { said=$("$@" 2>&1 >&3) || ended=$?; } 3>&1
        printf '\n%s.' "${said##*$'\n'}"
        exit "$ended"
    ) || ended=$?
    written=${answer%$'\n'*}
    said=${answer##*$'\n'}
    said=${said%.}
    return "$ended"
}

# Says why there is no answer for a file, in the system's own words.
complain() {
    local reason=${2##*: }
    reason=${reason% (os error *)}
    say "$1: ${reason,}"
}
