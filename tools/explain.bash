# What a status of the program means, for ./plasma, which reads this by `source` behind a run: `top`, `say` and `is_whole`
# are its own.
# shellcheck disable=SC2154

# Says what a status of a form means, and where it was a line, what is wrong with it: of the file of this name.
tell_status() {
    local status=$1 copy=$2 form=${3:-}
    case $status in
        0) noted "$copy" "$form" ;;
        1) refused "$form" ;;
        3 | 8) wrong_line "$copy" "$form" ;;
        4) say "standard input could not be read (status 4)" ;;
        5) [ -p /proc/self/fd/1 ] || say "the text could not be written whole: a full device (status 5)" ;;
        6) say "a call on a journal's file failed (status 6): docs/HANDBOOK.md, After status 6, before the next run" ;;
        7) say "memory ran out (status 7)" ;;
        9) say "a file here isn't a journal of such a node (status 9): is it the right folder, and the right form?" ;;
        10) say "a file here has something in it already (status 10): another node needs a folder of its own" ;;
    esac
}

# Says what of a replay was most likely not meant: of its input, and where its text goes to a file what was refused.
noted() {
    local text=() said
    [ "$2" = replay ] && [ -f "$1" ] && [ "$(stat -L -c %s "$1")" -lt 65536 ] && can_tell || return 0
    [ ! -f "/proc/$$/fd/1" ] || text=("/proc/$$/fd/1")
    ! grep -q -e '#' -e ' refused ' "$1" "${text[@]}" 2> /dev/null ||
        said=$(python3 "$top/tools/why" --notes "$1" "${text[@]}" 2> /dev/null)
    [ -z "${said:-}" ] || say "$said"
}

# Says what a refusal means: of what was written last, where that can be seen.
refused() {
    local last=''
    [ ! -f "/proc/$$/fd/1" ] || last=$(tail -c 200 "/proc/$$/fd/1" 2> /dev/null | tail -n 1)
    if [[ $last = 'refused '* ]] && can_tell; then
        tell "$last"
    else
        say "refused, and what stood behind it wasn't looked at (status 1): '$(name_of why) CAUSE' says what the" \
            "cause means, and what to do"
    fi
}

# Says which line ended a run, and why.
wrong_line() {
    local of=()
    [[ $2 =~ ^(replay|brief|make)$ ]] || of=(--of "$2")
    if [ -f "$1" ] && can_tell; then
        tell "${of[@]}" "$1"
    else
        say "a line isn't as it should be: with the lines in a file, '$(name_of why) FILE' says which and why"
    fi
}

# What tools/why says, whole or, where standard error is no terminal, on one line.
tell() {
    if is_whole; then
        python3 "$top/tools/why" "$@" >&2 || true
    else
        say "$(python3 "$top/tools/why" --line "$@")"
    fi
}

can_tell() {
    [ -e "$top/tools/why" ] && command -v python3 > /dev/null
}

# How a script is called here.
name_of() {
    if [ -e "$top/crates.txt" ]; then echo "tools/$1"; else echo "plasma-$1"; fi
}
