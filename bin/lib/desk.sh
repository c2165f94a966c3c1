# A question about a run, asked of the second program; sourced after lib/common.sh by bin/worked and bin/state.
#     desk QUESTION MOST [FILE [EVENT ..]]   asks it of FILE, or of standard input, with at most MOST events, and shows the answer; where
#                                            the run is refused, what comes before that, the refusal in words, and status 1

# The letters of the answers for a terminal without UTF-8.
in_letters() { if is_utf8; then cat; else sed 's/├/|/g; s/│/|/g; s/└/`/g; s/─/-/g; s/÷/\//g; s/−/-/g; s/×/x/g; s/→/->/g'; fi; }

desk() {
    local question=$1 events=$2 file=() words=() word event status=0
    shift 2
    most $((events + 1)) "$@"
    if [ $# -gt 0 ]; then file=("$1") && shift; fi
    for word in "$@"; do
        event=$(a_count "an event" "$word" 0 999999999)
        words+=("$event")
    done
    while [ "${#words[@]}" -lt "$events" ]; do words+=(-); done
    most_given=1073741824
    take_bytes "" ${file[@]+"${file[@]}"}
    if [ "$(wc -c <"$work/bytes")" -gt "$most_given" ]; then cannot "$given_as has more than $most_given bytes"; fi
    "$here/second"
    DESK_WIDTH=$(width) "$root/target/second/second" "$question" "${words[@]}" <"$work/bytes" >"$work/answer" 2>"$work/said" || status=$?
    if [ "$status" != 0 ]; then
        cat "$work/said" >&2
        cannot "the second program ended with status $status"
    fi
    in_letters <"$work/answer" >"$work/lines"
    if refusal_of "$work/lines"; then
        sed '$d' "$work/lines" >"$work/shown"
        if [ -s "$work/shown" ]; then echo >>"$work/shown"; fi
        { tail -n 1 "$work/lines" && in_words; } >>"$work/shown"
        show "$work/shown"
        exit 1
    fi
    read -r word <"$work/lines" || true
    case $word in "The run has "*) bad "$word" ;; esac
    show "$work/lines"
}
