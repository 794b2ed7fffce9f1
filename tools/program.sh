# shellcheck shell=sh
# What ./standplan and ./standprice share: each sets `root`, `called`, the program's name, `begins`, the first word of what it prints of an accepted sheet,
# `about`, what it does, and `gives`, what status 0 means, and reads this file. It runs the program on one sheet, from a file or from standard input. Proves and
# builds the program first where it is missing or older than the crates; what it prints is passed on as it is. Whatever else there is to say goes to standard error.
program=$root/target/bin/$called
log=$root/target/$called.log
lock=$root/target/staticlib/lock          # that of tools/library, which proves the same crates

usage() {
    cat <<END_OF_USAGE
usage: ./$called FILE
       ./$called [-] < FILE
       ./$called --version
$about

status 0  $gives
       1  the sheet is refused, or the text holds no sheet
       2  wrong use, a file that cannot be read, or an output that cannot be written to
       3  the program is not there, or the library for a text: it could not be proved and built, or it failed
END_OF_USAGE
}

say() { printf '%s: %s\n' "$called" "$*" >&2 || :; }
wrong() { say "$*"; exit 2; }
no_program() { say "$*"; exit 3; }

# Prints to standard output.
tell() {
    (trap '' PIPE; printf '%s\n' "$1") 2>/dev/null || wrong "standard output cannot be written to: it is full or closed"
}

# Missing, or older than a crate, but what rt keeps of it in out/.
older() {
    [ ! -x "$program" ] ||
        [ -n "$(find "$root/crates.txt" -newer "$program"; find "$root"/crates/*/ -mindepth 1 -name out -prune -o -newer "$program" -print -quit)" ]
}

# The crates that the program needs, in the order in which rt proves them: each after those that it uses.
needed() {
    awk '
        function visit(n,    a, k, m) {
            if (n in seen) return
            seen[n]
            m = split(needs[n], a, " ")
            for (k = 1; k <= m; k++) if (a[k] in needs) visit(a[k])
            print n
        }
        { sub(/#.*/, "") }
        /:/ { name = $1; sub(/:.*/, "", name); sub(/[^:]*:/, ""); needs[name] = $0 }
        END { visit(program) }' program="$called" "$root/crates.txt"
}

# Keeps what rt prints in the log, and shows which crate it is at: on a terminal in one line, else in a line for each. A crate that is proved already has none.
follow() {
    crates=$(needed)
    count=$(printf '%s\n' "$crates" | wc -l)
    while IFS= read -r line; do
        printf '%s\n' "$line" >>"$log"
        case $line in
            'rt: chose --jobs '*' for '*) show "${line##* }" ;;
        esac
    done
    [ ! -t 2 ] || printf '\r\033[K' >&2
}

show() {
    at=$(printf '%s\n' "$crates" | grep -n -x "$1") || return 0
    if [ -t 2 ]; then printf '\rproving crate %s of %s: %s\033[K' "${at%%:*}" "$count" "$1" >&2; else say "proving crate ${at%%:*} of $count: $1"; fi
}

# Hands on what tools/sheet says of a text, as said of the sheet, and what tools/library says where it has to build first.
of_text() {
    while IFS= read -r line; do
        case $line in
            'standard input: '*) say "$name: ${line#standard input: }" ;;
            'sheet: '*) say "${line#sheet: }" ;;
            *) printf '%s\n' "$line" >&2 ;;
        esac
    done
}

build() {
    why='is not built yet'
    [ ! -x "$program" ] || why='is older than the crates'
    for tool in rt flock; do
        command -v $tool >/dev/null || no_program "the program $why, and $tool is not on the path (rt is the Rattle toolchain, which proves and builds it)"
    done
    { mkdir -p "$(dirname "$lock")" && (: >>"$lock") && (: >>"$log"); } 2>/dev/null ||
        no_program "the program $why, and cannot be built, for this clone cannot be written to: $root/target"
    # Whatever rt leaves running when it is interrupted keeps the lock too.
    exec 9>>"$lock"
    flock -n 9 || { say 'another call is building; this one waits for it'; flock 9; }
    older || { exec 9>&-; return 0; }
    say "the program $why; proving and building it first, which can take some minutes"
    : >"$log"
    : >"$place/began"
    # rt runs the program too, here on no sheet.
    { (cd "$root/crates/$called" && rt run </dev/null 2>&1 >/dev/null) || : >"$place/failed"; } | follow
    made=$root/crates/$called/out/$called
    if [ -e "$place/failed" ] || [ ! -x "$made" ]; then
        tail -n 1 "$log" >&2 || :
        no_program "the program could not be proved and built; $log has what rt said"
    fi
    { mkdir -p "$(dirname "$program")" && cp "$made" "$program.new" && touch -r "$place/began" "$program.new" &&         # as old as what it was built from
        mv -f "$program.new" "$program"; } || no_program "the program could not be put at $program"
    exec 9>&-
}

name='standard input'
case $#:${1-} in
    1:-h | 1:--help) tell "$(usage)"; exit 0 ;;
    1:--version) tell "$called $(cat "$root/VERSION"), proved with $(cat "$root/.ci/toolchain")"; exit 0 ;;
    0:) [ ! -t 0 ] || { usage >&2; exit 2; } ;;
    1:-) ;;
    1:-* | 1:) usage >&2; exit 2 ;;
    1:*)
        name=$1
        [ -e "$1" ] || wrong "there is no file $1"
        [ ! -d "$1" ] || wrong "$1 is a directory; name a file with a sheet"
        [ -r "$1" ] || wrong "$1 cannot be read"
        exec <"$1"
        ;;
    *) usage >&2; exit 2 ;;
esac
[ ! -d /dev/stdin ] || wrong "standard input is a directory; name a file with a sheet"

trap 'exit 130' INT
trap 'exit 143' TERM
place=$(mktemp -d) || wrong "no temporary folder can be made"
trap 'rm -rf "$place"' EXIT

# The first 8,192 bytes of a sheet decide what is printed of it; the longest has 5,825. A text may be longer.
sheet=$place/sheet
head -c 8192 >"$sheet" 2>/dev/null || wrong "$name cannot be read"
# A text begins like one, and its third byte is no sheet's: N or R is too large.
# shellcheck disable=SC2046
set -- $(od -An -v -tu1 -N3 "$sheet")
if [ "${3-0}" -gt 2 ]; then
    case $(LC_ALL=C tr -d '\357\273\277 \t\r\n\v\f' <"$sheet" | LC_ALL=C tr -c 'sl#' '.' | cut -c 1-1) in
        s* | l* | '#'*)
            command -v python3 >/dev/null || wrong "this is a sheet as text, and python3, which tools/sheet needs for it, is not on the path"
            echo 0 >"$place/status"
            { cat "$sheet" - | "$root/tools/sheet" bytes 2>&1 >"$place/bytes" || echo $? >"$place/status"; } | of_text
            case $(cat "$place/status") in
                0) sheet=$place/bytes ;;
                1) exit 1 ;;
                3) exit 3 ;;
                *) exit 2 ;;
            esac
            ;;
    esac
fi

if older; then build; fi

# The program's lines each end with a newline, so nothing is lost here.
status=0
printed=$("$program" <"$sheet") || status=$?
case $status:$printed in
    0:"$begins"*) tell "$printed" ;;
    0:refused*)
        tell "$printed"
        # In words: those of docs/REFUSALS.md.
        number=${printed#refused }
        sentence=$(sed -n "s/^| $number | \(.*\) |\$/\1/p" "$root/docs/REFUSALS.md" | sed 's/ (.*)$//; s/; .*$//')
        say "refused $number: ${sentence:-see docs/REFUSALS.md}"
        exit 1
        ;;
    *) no_program "the program $program ended with status $status" ;;
esac
