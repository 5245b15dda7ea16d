# shellcheck shell=bash disable=SC2034,SC2154
# The files of tests/corpus/, as standard input and by their names.
#
# A case is a game file, NAME.nfg or NAME.efg. Beside it lies one of
#   NAME.out   the bytes that are expected on standard output; the status is 0 then,
#   NAME.err   the bytes that are expected on standard error; the status is 2 then.
# Nothing is expected on the other stream. What is expected on standard output is canonical text: as
# standard input it has to come out as it is. `check` has to tell the kind of file, or to refuse it so.

# What `check` writes of a file that is right, by its name.
kind_of() { # GAME-FILE
    case $1 in
    *.efg) echo tree ;;
    *.nfg) echo table ;;
    esac
}

check_case() { # GAME-FILE
    local base=${1%.*} expected=0 kind=$nothing text=$nothing refusal=$nothing
    if [[ -e $base.err ]]; then
        expected=2 refusal=$base.err
    else
        text=$base.out kind=$scratch/kind
        kind_of "$1" >"$kind"
    fi
    run <"$1"
    judge "${1##*/}" "$text" "$refusal" "$expected"
    run canon "$1" <"$nothing"
    judge "canon ${1##*/}" "$text" "$refusal" "$expected"
    run check "$1" <"$nothing"
    judge "check ${1##*/}" "$kind" "$refusal" "$expected"
}

# Canonical text canonises to itself.
check_canonical() { # GAME-FILE
    local text=${1%.*}.out
    if [[ -e $text ]]; then
        run <"$text"
        judge "${text##*/}" "$text" "$nothing" 0
    fi
}

check_corpus() {
    local game games=("$corpus"/*.nfg "$corpus"/*.efg)
    for game in "${games[@]}"; do
        check_case "$game"
        check_canonical "$game"
    done
    if ((${#games[@]} == 0)); then
        fail "tests/corpus has no case"
    fi
}

# A file that belongs to no case would never be looked at, and a case needs a text or a refusal.
check_strays() {
    local file base
    for file in "$corpus"/*; do
        base=${file%.*}
        case $file in
        *.nfg | *.efg)
            if [[ -e $base.out && -e $base.err || ! -e $base.out && ! -e $base.err ]]; then
                fail "${file##*/}: one of .out and .err is expected"
            fi
            ;;
        *.out | *.err)
            if [[ ! -e $base.nfg && ! -e $base.efg ]]; then
                fail "${file##*/}: there is no such game file"
            fi
            ;;
        *) fail "${file##*/}: it belongs to no case" ;;
        esac
    done
}
