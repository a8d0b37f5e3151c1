#!/bin/sh
# Runs the planner: words, standard input, standard output and the status go through untouched; what this adds goes to standard error.
# In a checkout, where the program isn't built or a source is newer, this proves and builds it first; where it is installed, it stands
# beside the tools. Where the variable PKS names a program, as for the tools, that one is run in its place, and nothing is proved.
# `pks try WORDS` proves nothing: it compiles the sources and runs them as they stand.
# `pks help [WORD]` and `pks version` run nothing at all.
top=$(dirname "$(readlink -f "$0")")
crate=$top/crates/pks
program=$crate/out/pks
me=./pks
if [ -x "$top/tools/pks" ]; then
    program=$top/tools/pks
    me=pks
fi

say() {
    echo "pks: $1" >&2
}

# What PKS names: a path, or a command on the PATH; of the script of another checkout the program that it has built. Nothing where
# that is this script.
find_named() {
    case $PKS in
        */*) found=$PKS ;;
        *) found=$(command -v -- "$PKS") || found=./$PKS ;;
    esac
    script=$(readlink -f -- "$found")
    [ "$script" != "$(readlink -f "$0")" ] || return
    other=$(dirname -- "$script")
    if [ -f "$other/crates.txt" ] && [ -d "$other/crates" ]; then
        found=$other/crates/pks/out/pks
    fi
    echo "$found"
}

need_named() {
    [ -f "$named" ] && [ -x "$named" ] && return
    say "the variable PKS names $PKS, and no program is there ($named)."
    exit 127
}

is_stale() {
    [ -x "$program" ] || return 0
    [ "$me" = pks ] && return 1
    newer=$(find "$top/crates.txt" "$top/crates" -name out -prune -o \
        \( -name '*.rt' -o -name '*.antt' -o -name crates.txt \) -newer "$program" -print -quit)
    [ -n "$newer" ]
}

need_rt() {
    command -v rt >/dev/null 2>&1 && return
    say "the program must be built first, and rt, the toolchain's command, isn't on the PATH."
    say "install the Rattle kit that README.md names, or put its bin folder on the PATH."
    tell_of_named
    exit 127
}

tell_of_named() {
    say "PKS=PROGRAM ./pks WORDS < FILE runs a program that is there, and proves nothing."
}

# Help

manual=$top/docs/manual.txt

overview() {
    awk '/^= NAME/ { getline; sub(/ - /, ": "); print } /^= SYNOPSIS/ { print ""; getline; print; getline; print; print "" }
        /^== / { word = substr($0, 4); getline; printf "  %-12s %s\n", word, $0 }' "$manual"
    echo
    echo "'$me help WORD' tells more of one; '$me help status', 'help tools' and 'help environment' of these."
}

help() {
    [ $# -eq 0 ] && { overview; exit 0; }
    told=$(awk -v wanted="$1" '
        /^=/ { name = tolower($2); shown = name == tolower(wanted); if (shown) { $1 = ""; print substr($0, 2); next } }
        shown { print }' "$manual")
    [ -n "$told" ] && { echo "$told"; exit 0; }
    say "there is no help on '$1'."
    overview >&2
    exit 2
}

version() {
    number=$(sed -n 's/^## \([0-9][0-9.]*\).*/\1/p' "$top/CHANGELOG.md" | head -1)
    if [ -f "$top/INSTALLED" ]; then
        state=$(cat "$top/INSTALLED")
        [ -z "$named" ] || state="${state%%,*}, run by what the variable PKS names: $named"
        echo "pks $number, $state"
        exit 0
    fi
    commit=$(git -C "$top" rev-parse --short HEAD 2>/dev/null) && commit="commit $commit" || commit="no commit known"
    [ -z "$(git -C "$top" status --porcelain -uno 2>/dev/null)" ] || commit="$commit with changes"
    state="proved"
    is_stale && state="not proved: a source is newer than the program, and the next call proves it"
    [ -x "$program" ] || state="not proved: the first call proves and builds the program"
    [ -z "$named" ] || state="run by what the variable PKS names: $named"
    echo "pks $number, $commit, $state"
    exit 0
}

# What is wrong with the words, in a sentence; nothing where they seem to be right. The program itself decides.

is_number() {
    case $1 in '' | *[!0-9]* | 0?*) return 1 ;; esac
    [ "${#1}" -le 4 ]
}

fault_of_number() {
    word=$1 name=$2 least=$3 most=$4
    shift 4
    if [ $# -eq 0 ] && [ "$word" = bench ]; then
        echo "'bench' wants a $name from $least to $most behind it: $me bench 4"
    elif [ $# -eq 0 ]; then
        echo "'$word' wants a $name from $least to $most behind it: $me $word 4 < FILE"
    elif [ $# -gt 1 ]; then
        fault_of_rest "$word $1" "$2"
    elif ! is_number "$1"; then
        if [ -e "$1" ]; then
            echo "a file is read from standard input, and '$word' wants a $name: $me $word 4 < $1"
        else
            echo "'$1' is no $name: it is from $least to $most, in digits, without a sign or a leading zero."
        fi
    elif [ "$1" -lt "$least" ] || [ "$1" -gt "$most" ]; then
        echo "the $name is from $least to $most, and $1 isn't."
    fi
}

fault_of_rest() {
    if [ -e "$2" ]; then
        echo "the file is read from standard input: $me $1 < $2"
    else
        echo "'$2' is a word too many: behind '$1' none stands, and the file is read from standard input."
    fi
}

fault_of_words() {
    case " $* " in *" -- "*) return ;; esac
    case $1 in
        plan | exec | recall | agent | explain | shared) word=$1; shift; fault_of_number "$word" depth 0 16 "$@" ;;
        bench) shift; fault_of_number bench "number of objects" 1 64 "$@" ;;
        check | derive) [ $# -eq 1 ] || fault_of_rest "$1" "$2" ;;
        '') echo "a word must say what to do; '$me help' lists them." ;;
        --help | -h) echo "'$me help' tells what the words do, and '$me help plan' more of one." ;;
        --version | -V | -v) echo "'$me version' tells the version." ;;
        -*) echo "there are no options, and so no '$1'; '$me help' lists the words." ;;
        *) fault_of_mode "$1" ;;
    esac
}

fault_of_mode() {
    if [ -e "$1" ]; then
        echo "a file is read from standard input, behind a word that says what to do: $me check < $1"
        return
    fi
    for known in check plan exec bench recall agent explain derive shared; do
        case $known in "$(printf %.2s "$1")"*) echo "there is no word '$1'; is '$known' meant?"; return ;; esac
    done
    echo "there is no word '$1'; '$me help' lists them."
}

tell_of_input() {
    case $1 in
        check | plan | exec | recall | explain | derive | shared) [ -t 0 ] && say "the file is read from standard input: $me $* < FILE" ;;
        agent) [ -t 0 ] && say "the file is read from standard input, up to a line that is a full stop alone, and behind it the answers." ;;
    esac
}

fail() {
    say "the program could not be built."
    exit 125
}

build() {
    say "proving and building the program: one and a half to two processor hours from nothing, about half an hour on four cores. Later calls run it at once."
    say "./pks try WORDS < FILE runs it unproved, in about a minute."
    tell_of_named
    rm -f "$program"
    python3 "$top/tools/prove.py" pks </dev/null || fail
}

# Standard output has what the program writes alone. The toolchain is heard where the program didn't run to its end.
try_unproved() {
    say "nothing is proved: the sources are compiled and run as they stand, which takes about a minute."
    { said=$(cd "$crate" && rt try -- "$@" 2>&1 >&3); status=$?; } 3>&1
    case $said in
        *"run=ended status="*) ;;
        *) echo "$said" >&2 ;;
    esac
    end "$status" "$@"
}

# Runs the program as a child, which ends when this is told to. (A child behind `&` has no standard input unless it is given one.)
run() {
    if [ -e /dev/fd/0 ]; then
        exec 3<&0
        "$program" "$@" <&3 3<&- &
        exec 3<&-
    else
        "$program" "$@" <&- &
    fi
    child=$!
    caught=
    trap 'caught=130; kill -TERM "$child" 2>/dev/null' INT
    trap 'caught=143; kill -TERM "$child" 2>/dev/null' HUP TERM
    wait "$child"
    status=$?
    while kill -0 "$child" 2>/dev/null; do
        wait "$child"
        status=$?
    done
    [ -z "$caught" ] || exit "$caught"
    end "$status" "$@"
}

end() {
    status=$1
    shift
    case $status in
        2)
            fault=$(fault_of_words "$@")
            say "${fault:-the words ask for no job, and $me help lists those that do.}"
            ;;
        4) say "standard input could not be read (status 4): is it a file, and not a folder?" ;;
        5) say "standard output could not be written (status 5), so a part of the text may be missing: is the disk full, or did the reader end?" ;;
        6) say "memory was wanting (status 6), and nothing was written: a smaller depth or fewer objects want less." ;;
        7) say "the environment did not give the program its words (status 7)." ;;
        137) say "the program was killed (signal 9): perhaps memory was wanting." ;;
    esac
    exit "$status"
}

named=
[ -z "$PKS" ] || named=$(find_named)
case $1 in
    help) shift; help "$@" ;;
    version) version ;;
esac
if [ "$1" = try ]; then
    [ "$me" = pks ] && { say "this program is installed, and there are no sources to try."; exit 2; }
    shift
    need_rt
    [ -n "$(fault_of_words "$@")" ] || tell_of_input "$@"
    try_unproved "$@"
fi
fault=$(fault_of_words "$@")
if [ -n "$named" ]; then
    need_named
    program=$named
    unset PKS
elif is_stale; then
    [ -z "$fault" ] || { say "$fault"; exit 2; }
    need_rt
    build
fi
[ -n "$fault" ] || tell_of_input "$@"
run "$@"
