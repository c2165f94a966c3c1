# What every command of bin/ stands on. A new command is a head comment, which is its help, and this line:
#     . "$(dirname "$(readlink -f "$0")")/lib/common.sh"
# From then on -h and --help print the head, a first word -- is passed over, and these are there:
#     $me, $here, $root            the command's name, bin/, the top folder
#     say, bad, cannot TEXT        a sentence on standard error; bad ends with status 2 (bad words), cannot with 3 (cannot run)
#     most N "$@"                  bad where there are more than N words
#     only WORD "$@"               bad where there is any other word, or more than one
#     a_count NAME WORD LEAST MOST prints the number that a word is, or bad
#     need TOOL ..                 cannot where a tool is missing: what it is, and which version
#     work_folder                  $work, a folder of this call alone, gone at its end
#     has_room                     cannot where $work takes no more
#     kept_in NAME                 $kept, a folder that stays, for what is worth keeping
#     a_file WORD                  bad where the word is no file that can be read
#     take SAMPLE [WORD]           the input that a word names, as $work/given; $given_as says what it is
#     take_bytes SAMPLE [WORD]     the same as the bytes of a plan or a run, $work/bytes: a text is packed (lib/text.awk)
#     refusal_of FILE              sets $number and $place where the last line of FILE is `stop`
#     with_names FILE              FILE, the lines of planread, with the names of the classes
#     in_words                     what a refusal means, from docs/refusals.md, the bytes and the text (lib/refusal.awk)
#     refused_arrivals FILE [LAST] says what the `no` lines of a run mean; LAST gets the run's last line
#     show FILE ..                 FILE on standard output; cannot where it cannot be written
#     replace FILE BY              FILE gets what BY holds, or stays as it is
#     locked, unlocked             one call at a time in target/
#     fresh FILE NAME, due         whether FILE is built and no source of the crate NAME is newer; else $due says why
#     none_newer FILE NAME         the last part of it: whether no source of the crate NAME, or of one below it, is newer than FILE
# Statuses: 0 good, 1 refused or different, 2 bad words, 3 cannot run.
set -Eeuo pipefail
unset CDPATH

me=${0##*/}
here=$(cd "$(dirname "$(readlink -f "$0")")" && pwd -P)
root=${here%/*}
lib=$here/lib
at_terminal=
if [ -t 1 ]; then at_terminal=yes; fi

# The tools, as README.md names them.
declare -A tool=(
    [rt]="the Rattle kit's command, rattle-kit-13f, which proves and builds the programs"
    [rustc]="the Rust compiler (tried with 1.95)"
    [python3]="Python 3 (tried with 3.11)"
    [cc]="a C compiler, which links a native program"
    [git]="git"
    [node]="node (tried with 20)"
    [chromium]="Chromium (tried with 156)"
)

say() { printf '%s: %s\n' "$me" "$*" >&2; }
bad() {
    say "$*"
    exit 2
}
# CANNOT_RUN=FILE: a command further up that wants to know keeps the sentence too, whatever a pipe does with the status.
cannot() {
    say "$*"
    if [ -n "${CANNOT_RUN:-}" ]; then printf '%s: %s\n' "$me" "$*" >>"$CANNOT_RUN"; fi
    exit 3
}

# What nobody has looked after: a file that cannot be written, a tool that fails. A command that was called has said why itself.
trap 'fault $? "${BASH_SOURCE[0]##*/}" $LINENO' ERR
fault() { case $1 in 2 | 3 | 141) exit "$1" ;; *) cannot "cannot go on: status $1 at line $3 of $2; is a disk full?" ;; esac; }

most() { # N WORD ..
    local n=$1
    shift
    if [ $# -gt "$n" ]; then bad "words: $#, and it can use $n at most; bin/${0##*/} -h says which"; fi
}

only() { # WORD "$@"
    local word=$1
    shift
    most 1 "$@"
    if [ $# = 1 ] && [ "$1" != "$word" ]; then bad "no word \"$1\"; bin/${0##*/} [$word]"; fi
}

# A count of at most 18 digits; leading zeros are nothing.
a_count() { # NAME WORD LEAST MOST
    local n=$2
    case $n in '' | *[!0-9]*) bad "$1 is \"$2\"; expected a number from $3 to $4" ;; esac
    n=${n#"${n%%[!0]*}"}
    if [ ${#n} -gt 18 ] || [ "${n:-0}" -lt "$3" ] || [ "${n:-0}" -gt "$4" ]; then bad "$1 is $2; expected a number from $3 to $4"; fi
    printf '%s' "${n:-0}"
}

need() {
    local name
    for name in "$@"; do
        command -v "$name" >/dev/null || cannot "no $name on PATH: it needs ${tool[$name]:-$name}"
    done
}

# What is written: all of it, or status 3. A reader that has seen enough (| head) is no fault.
show() {
    local status=0 why
    { why=$(cat -- "$@" 2>&1 >&3) || status=$?; } 3>&1
    case $status in 0) ;; 141) exit 141 ;; *) cannot "standard output cannot be written: ${why##*: }" ;; esac
}

# A file is never left half written.
replace() { # FILE BY
    local file new
    file=$(readlink -f "$1")
    new=$(mktemp "$file.XXXXXX" 2>/dev/null) || cannot "$1 cannot be written; it is as it was"
    if { cp -p "$file" "$new" && cat "$2" >"$new" && mv -f "$new" "$file"; } 2>/dev/null; then return; fi
    rm -f "$new"
    cannot "$1 cannot be written; it is as it was"
}

work_folder() {
    if [ -n "${work:-}" ]; then return; fi
    work=$(mktemp -d 2>/dev/null) || cannot "no room for temporary files in ${TMPDIR:-/tmp}"
    trap 'rm -rf "$work"' EXIT
}

# Before a difference is told: a full disk makes differences of its own.
has_room() {
    head -c 1048576 /dev/zero 2>/dev/null >"$work/room" || cannot "no room for temporary files in $work"
    rm -f "$work/room"
}

# Where a comparison keeps an input that differs: $kept, in target/ or, for who may not write there, in a folder of its own.
kept_in() { # NAME
    kept=$root/target/$1
    if mkdir -p "$kept" 2>/dev/null && [ -w "$kept" ]; then return; fi
    kept=$(mktemp -d) || cannot "no room for temporary files in ${TMPDIR:-/tmp}"
}

# ---- What a user gives

# Nobody gave anything: a terminal, no standard input at all, or /dev/null.
nothing_given() { [ -t 0 ] || [ ! -e /dev/fd/0 ] || [ /dev/fd/0 -ef /dev/null ]; }

# Where nothing comes for three seconds, this is said once; it goes on waiting, since a slow input is an input too.
await_input() {
    local turn
    for ((turn = 0; turn < 60; turn++)); do
        if read -r -t 0; then return; fi
        sleep 0.05
    done
    say "waiting for standard input; bin/$me -h says what else it takes"
}

most_given=16777216

a_file() { # WORD
    if [ -z "$1" ]; then bad "no file: the word is empty"; fi
    if [ -d "$1" ]; then bad "$1 is a folder, not a file"; fi
    if [ ! -e "$1" ]; then
        case $1 in -*) bad "$1 is neither an option nor a file; bin/$me -h says what it takes" ;; *) bad "no file $1" ;; esac
    fi
    if [ ! -r "$1" ]; then bad "$1 cannot be read by this user"; fi
}

take() { # SAMPLE [WORD]
    local sample=$1 word=- why
    shift
    if [ $# -gt 0 ]; then
        word=$1
    elif nothing_given; then
        if [ -z "$sample" ]; then bad "no file; bin/$me -h says what it takes"; fi
        say "no file is named: this is the sample, ${sample#"$root/"}"
        word=$sample
    else
        await_input
    fi
    work_folder
    if [ "$word" = - ]; then
        given_as="standard input"
        why=$(head -c $((most_given + 1)) 2>&1 >"$work/given") || cannot "standard input cannot be kept in $work: ${why#head: }"
        if [ $# = 0 ] && [ -n "$sample" ] && [ ! -s "$work/given" ]; then say "standard input is empty; bin/$me --sample shows the sample"; fi
        return
    fi
    given_as=$word
    a_file "$word"
    why=$(head -c $((most_given + 1)) 2>&1 <"$word" >"$work/given") || cannot "$word cannot be kept in $work: ${why#head: }"
}

# A text is known by its first byte: no plan begins with a printable character, a space, a tab or a line's end.
is_text() { # FILE
    local first
    first=$(od -An -N3 -tx1 <"$1" | tr -d ' \n')
    case $first in
    feff* | fffe*) bad "$given_as is a text in UTF-16: save it as plain text (UTF-8)" ;;
    efbbbf | 09* | 0a* | 0d* | [2-6]* | 7[0-9a-e]*) return 0 ;;
    *) return 1 ;;
    esac
}

# The bytes of the input, with $text where it was a text. $work/map then has a line for each record: place, class or 0, line, name.
take_bytes() {
    take "$@"
    text=
    : >"$work/map"
    if is_text "$work/given"; then
        text=yes
        pack_text
    else
        mv "$work/given" "$work/bytes"
    fi
}

# The bytes come as octal escapes for printf, which every shell writes byte for byte.
pack_text() {
    local escapes
    if [ "$(wc -c <"$work/given")" -gt "$most_given" ]; then bad "$given_as is a text of more than $most_given bytes"; fi
    if [ "$(tr -cd '\000' <"$work/given" | wc -c)" -gt 0 ]; then
        bad "$given_as begins as a text and has bytes 0 in it: it is neither a text nor a plan"
    fi
    ESCAPES=$work/escapes MAP=$work/map WHO=$me FROM=$given_as LC_ALL=C awk -f "$lib/text.awk" <"$work/given" || exit $?
    escapes=$(cat "$work/escapes")
    # shellcheck disable=SC2059 # the bytes are escapes, made above
    printf "$escapes" 2>/dev/null >"$work/bytes" || cannot "no room for temporary files in $work"
}

# ---- Refusals

# Whether the last line of FILE is `stop NUMBER PLACE`.
refusal_of() { # FILE
    local stop
    if [ ! -s "$1" ]; then cannot "the program printed nothing"; fi
    read -r stop number place < <(tail -n 1 "$1") || true
    [ "$stop" = stop ]
}

# How wide a text or a picture may be.
width() {
    local columns=${COLUMNS:-}
    if [ -z "$columns" ] && [ -n "$at_terminal" ]; then columns=$({ stty size </dev/tty | sed 's/.* //'; } 2>/dev/null || true); fi
    case $columns in '' | *[!0-9]* | ???????*) columns=108 ;; esac
    if [ "$columns" -lt 40 ]; then columns=40; fi
    if [ "$columns" -gt 108 ]; then columns=108; fi
    printf '%s' "$columns"
}

# Whether letters beyond ASCII can be shown, as the locale says.
is_utf8() { case ${LC_ALL:-${LC_CTYPE:-${LANG:-}}} in *[Uu][Tt][Ff]8* | *[Uu][Tt][Ff]-8*) return 0 ;; *) return 1 ;; esac; }

# A record has 8 bytes at most and a plan 505, so what comes later is not looked at. Where the bytes were not kept, the table's row alone.
in_words() {
    local most size
    most=$(width)
    work_folder
    if [ ! -e "$work/bytes" ]; then
        NUMBER=$number PLACE=$place MOST=$most PAGE=$root/docs/refusals.md LC_ALL=C awk -f "$lib/refusal.awk" </dev/null
        return
    fi
    size=$(wc -c <"$work/bytes")
    od -An -v -tu1 -N $((place + 600)) "$work/bytes" |
        NUMBER=$number PLACE=$place SIZE=$size MOST=$most TEXT=${text:+$work/given} MAP=$work/map PAGE=$root/docs/refusals.md ASKS=$me \
            LC_ALL=C awk -f "$lib/refusal.awk"
}

# The arrivals of a run that were refused, a sentence for each number: how many, what it means, and the first of them.
refused_arrivals() { # FILE [LAST]
    LAST=${2-} LC_ALL=C awk -v me="$me" -v page="$root/docs/refusals.md" '
        $1 == "no" { if (!many[$5]++) first[$5] = $0 }
        { line = $0 }
        END {
            if (ENVIRON["LAST"] != "") print line > ENVIRON["LAST"]
            while ((getline row < page) > 0) {
                if (split(row, cell, / *[|] */) < 6 || !(cell[2] in many)) continue
                n = many[cell[2]]
                printf "%s: %d %s refused by number %s, %s; the first: %s\n", \
                    me, n, n == 1 ? "arrival was" : "arrivals were", cell[2], cell[3], first[cell[2]]
                delete many[cell[2]]
            }
        }' "$1" >&2
}

# The lines of planread with the names of the classes, where the input was a text.
with_names() { # FILE
    LC_ALL=C awk '
        NR == FNR && FILENAME != ARGV[2] { split($0, part, "\t"); if (part[2] + 0 && part[4] != "") name[part[2] + 0] = part[4]; next }
        $1 == "class" && ($2 + 0) in name { at = index($0, ":"); $0 = substr($0, 1, at - 1) " \"" name[$2 + 0] "\"" substr($0, at) }
        { print }' "$work/map" "$1"
}

# ---- What is built, and one call at a time

# The crates that a crate stands on, and itself, in the order of crates.txt: $order, with each one's needs in $needs.
stands_on() { # NAME
    local crate on more=yes
    declare -gA needs=() reached=()
    local listed=()
    order=()
    while IFS=: read -r crate on; do
        needs[$crate]=$on listed+=("$crate")
    done < <(sed 's/#.*//; /^[[:space:]]*$/d' "${repository:-$root}/crates.txt")
    reached[$1]=yes
    while [ -n "$more" ]; do
        more=
        for crate in "${!reached[@]}"; do
            for on in ${needs[$crate]:-}; do
                if [ -n "${needs[$on]+x}" ] && [ -z "${reached[$on]-}" ]; then reached[$on]=yes more=yes; fi
            done
        done
    done
    for crate in "${listed[@]}"; do if [ -n "${reached[$crate]-}" ]; then order+=("$crate"); fi; done
}

# A program that was built by `proved` bears the time when its proof began, so what was edited during the proof is newer.
fresh() { # FILE NAME
    if [ ! -x "$1" ]; then
        due="${1#"$root/"} is not built"
        return 1
    fi
    none_newer "$1" "$2"
}
none_newer() { # FILE NAME
    local crate part sources=("$root/crates.txt")
    stands_on "$2"
    for crate in "${order[@]}"; do
        for part in src specs proofs; do if [ -d "$root/crates/$crate/$part" ]; then sources+=("$root/crates/$crate/$part"); fi; done
    done
    due=$(find "${sources[@]}" -newer "$1" -print -quit)
    if [ -z "$due" ]; then return 0; fi
    due="${due#"$root/"} is newer than ${1#"$root/"}"
    return 1
}

# Who may not write into target/ says so and writes nothing.
writable() { # WHAT
    local folder=$root/target
    if [ ! -e "$folder" ]; then folder=$root; fi
    if [ ! -w "$folder" ]; then cannot "$1 ($due), and this user may not write into $folder: have its owner run bin/$me once"; fi
    mkdir -p "$root/target" 2>/dev/null || cannot "$root/target cannot be made"
}

locked() {
    local file=$root/target/lock waited=
    if command -v flock >/dev/null; then
        { [ -e "$file" ] || : >"$file"; } 2>/dev/null || cannot "$file cannot be written"
        exec {lock_fd}<"$file"
        if ! flock -n "$lock_fd"; then
            say "waiting for another call that proves or builds in $root"
            flock "$lock_fd"
        fi
        return
    fi
    until mkdir "$file.held" 2>/dev/null; do
        if [ -z "$waited" ]; then say "waiting for another call that proves or builds in $root" && waited=yes; fi
        if mkdir "$file.broken" 2>/dev/null; then
            if holder_gone "$file.held/by"; then rm -rf "$file.held"; fi
            rmdir "$file.broken"
        fi
        sleep 0.2
    done
    printf '%s\n' $$ >"$file.held/by"
}
# One call at a time looks whether the holder of a lock is still there.
holder_gone() { # FILE
    local by
    by=$(cat "$1" 2>/dev/null || true)
    [ -n "$by" ] && ! kill -0 "$by" 2>/dev/null && [ ! -e "/proc/$by" ]
}
unlocked() {
    if [ -n "${lock_fd:-}" ]; then exec {lock_fd}<&- && lock_fd=; else rm -rf "$root/target/lock.held"; fi
}

# ---- The words that every command knows

head_of() { awk 'NR == 1 { next } !/^#/ { exit } { sub(/^# ?/, ""); print }' "$1"; }
case ${1-} in
-h | --help)
    show <(head_of "$(readlink -f "$0")")
    exit 0
    ;;
--) shift ;;
esac
