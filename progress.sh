# Shows on standard error how far rt is: how many crates are proved, which is at work, the time so far. On a terminal it is one line that renews itself; elsewhere each that is done has
# a line, and those that rt finds proved before have one together.
# For ./ryefrost and .ci/run, which source it.
#
# It is read from what rt prints. `rt run` and `rt lib` take the crates in turn, say nothing of one that is proved already, and have lines that begin with `fn CRATE::` while they prove one:
# it is done, and kept, when they come to the next. `rt ci` takes the crates side by side, and has a line for each that is proved.

declare -A progress_place progress_done

progress_on() { # turns|sides WHO WHAT FILE CRATE ..: how rt takes the crates, who says it, what is said of those that are done, where rt's words go, and the crates, in their turn
    local crate
    progress_how=$1 progress_who=$2 progress_what=$3 progress_file=$4 progress_began=$SECONDS
    shift 4
    progress_crates=("$@") progress_place=() progress_done=() progress_at='' progress_next=0 progress_kept=0 progress_part='' progress_new=()
    for crate in "$@"; do progress_place[$crate]=${#progress_place[@]}; done
    [ -z "${progress_in:-}" ] || exec {progress_in}<&-
    progress_in=
}

# A crate is at work: what came before it is done, and proved already where rt has said nothing of it.
progress_works() { # CRATE
    local at=${progress_place[$1]-} crate
    [ "$progress_how" = turns ] && [ -n "$at" ] || return 0
    while [ "$progress_next" -lt "$at" ]; do
        crate=${progress_crates[progress_next]}
        progress_next=$((progress_next + 1))
        if [ "$crate" = "$progress_at" ]; then progress_ends "$crate" new; else progress_ends "$crate" kept; fi
    done
    progress_at=$1
}

progress_ends() { # CRATE kept|new
    if [ -z "${progress_place[$1]+x}" ] || [ -n "${progress_done[$1]+x}" ]; then return; fi
    progress_done[$1]=
    if [ "$2" = kept ]; then progress_kept=$((progress_kept + 1)); else progress_new+=("$1"); fi
    [ "$progress_at" != "$1" ] || progress_at=
}

progress_line() { # LINE
    local crate
    case $1 in
    'fn '*::*) crate=${1#fn } && progress_works "${crate%%::*}" ;;
    'rt: chose --jobs '*' for '*) progress_works "${1##* }" ;;
    'logic=proved '*) [ "$progress_at" != "${progress_crates[-1]}" ] || progress_ends "$progress_at" new ;;
    'rt: '*' is kept: '*) crate=${1#rt: } && progress_ends "${crate%% *}" kept ;;
    'rt: '*': begins with what a check kept in '*) crate=${1#rt: } && progress_works "${crate%%:*}" ;;
    'rt: '*' proved') crate=${1#rt: } && progress_ends "${crate% proved}" new ;;
    esac
}

# Reads what rt has printed since the last look, and says what is new.
progress_look() {
    local line crate count
    if [ -z "$progress_in" ]; then
        [ -e "$progress_file" ] || return 0
        exec {progress_in}<"$progress_file"
    fi
    while IFS= read -r line <&"$progress_in"; do
        progress_line "$progress_part$line"
        progress_part=
    done
    progress_part=$progress_part$line
    count=${#progress_done[@]}
    line="of ${#progress_crates[@]} $progress_what, $((SECONDS - progress_began)) s${progress_at:+; at work: $progress_at}"
    if [ -t 2 ]; then
        line="$progress_who: $count $line"
        printf '\r\033[K%s' "${line:0:$((${COLUMNS:-80} - 1))}" >&2
    else
        count=$((count - ${#progress_new[@]}))
        [ "$progress_kept" -eq 0 ] || printf '%s: proved before: %s %s\n' "$progress_who" "$count" "$line" >&2
        for crate in "${progress_new[@]}"; do
            count=$((count + 1))
            printf '%s: %s: %s %s\n' "$progress_who" "$crate" "$count" "$line" >&2
        done
    fi
    progress_kept=0 progress_new=()
}

# Takes the line off the terminal.
progress_off() {
    [ ! -t 2 ] || printf '\r\033[K' >&2
}
