# shellcheck shell=bash disable=SC2034,SC2154
# How the command line is interpreted, and which arguments are wrong usage.

# Wrong usage has no output, and a text on standard error.
check_usage() { # WORD..
    run "$@" <"$accepted.nfg"
    if [[ $status == 3 && ! -s $scratch/out ]] && grep -q '^error: ' "$scratch/err"; then
        passed=$((passed + 1))
    else
        fail "arguments '$*': wrong usage is expected, and status is $status"
    fi
}

# Wrong usage that is told in the program's own words.
check_told() { # SENTENCE HELP WORD..
    run "${@:3}" <"$nothing"
    printf "error: %s\n\nFor more information, try '%s'.\n" "$1" "$2" >"$scratch/expected"
    judge "what is said of '${*:3}'" "$nothing" "$scratch/expected" 3
}

# Help begins with the version, and no line of it is longer than a terminal's.
check_help() { # WORD..
    run "$@" <"$nothing"
    if [[ $status == 0 && ! -s $scratch/err && $(head -n 1 "$scratch/out") == "gamefile "[0-9]* ]] &&
        ! grep -Eq '.{81}' "$scratch/out"; then
        passed=$((passed + 1))
    else
        fail "arguments '$*': help of at most 80 columns is expected, and status is $status"
    fi
}

# The help of a command says how it is used, and is the same whichever words ask for it.
check_help_of() { # COMMAND
    run help "$1" <"$nothing"
    cp "$scratch/out" "$scratch/lines"
    grep -q "^Usage: gamefile $1 " "$scratch/lines"
    status=$?
    judge "help $1: its usage" "$scratch/lines" "$nothing" 0
    run "$1" --help <"$nothing"
    judge "$1 --help" "$scratch/lines" "$nothing" 0
    run "$1" -h <"$nothing"
    judge "$1 -h" "$scratch/lines" "$nothing" 0
}

check_words() {
    local words
    run canon <"$accepted.nfg"
    judge "canon of standard input" "$accepted.out" "$nothing" 0
    run check <"$accepted.nfg"
    judge_lines "check of standard input" 0 table
    for words in same "same a" "same a b c" "same --map --no-names a b" "same --map --map a b" \
        "same --map a" "canon a b" "canon --no-names --no-names" "canon --map a" "canon --reduced a" \
        "hash --map a" "hash --no-names --no-names" "duplicates --map a" "check -x" "check --no-names" \
        "check --zero a" "hash -0 a" "hash --files-from" "hash --files-from a b" "check --files-from a" \
        "canon --quiet a" "canon --check --write a" "canon --write" "canon --write -" "canon --write a -" \
        "canon --check --check a" "canon --check -0 a" "canon a b --no-names" "check --explain --explain" --explain \
        "check --reduced" "table a b" "table --reduced --reduced" tree Canon can - "-- canon" --canon \
        a.efg "canon --version" "same -V a b"; do
        # shellcheck disable=SC2086
        check_usage $words
    done
    check_usage ""
    check_usage canon $'\xff.efg'
    for words in --help -h help "canon --help" "check -h" "table --help" "same --help" "help canon" \
        "help check" "help table" "help same" "help hash" "hash --help" "help duplicates" "same a --help"; do
        # shellcheck disable=SC2086
        check_help $words
    done
    for words in canon check table same hash duplicates; do
        check_help_of "$words"
    done
    for words in --version -V; do
        run $words <"$nothing"
        judge_lines "words '$words'" 0 "gamefile $version"
    done
    check_told "'--check' cannot be used with '--write'" "gamefile help canon" canon --check --write a
    check_told "'--write' needs files: standard input cannot be replaced" "gamefile help canon" canon --write
    check_told "'--quiet' needs '--check' or '--write'" "gamefile help canon" canon --quiet a
    check_told "'canon' writes the text of one file: for several, give '--check' or '--write'" \
        "gamefile help canon" canon a b
    check_told "an argument is not UTF-8" --help canon $'\xff.efg'
    check_hint
    check_own_name
}

# If the name of a game file stands in place of a command, a command is suggested after the usage, and
# not for any other word.
check_hint() {
    local word expected
    for word in a.efg folder/a.nfg A.EFG - tree a.txt $'a\tb.efg' .efg.; do
        expected=0
        case $word in
        a.efg | folder/a.nfg | A.EFG | -) expected=1 ;;
        esac
        run "$word" <"$nothing"
        if [[ $status == 3 && ! -s $scratch/out ]] && grep -q '^Usage: ' "$scratch/err" &&
            [[ $(grep -c 'gamefile canon ' "$scratch/err") == "$expected" ]] && { ((expected == 0)) ||
            [[ $(tail -n 1 "$scratch/err") == "For its canonical text: gamefile canon $word" ]]; }; then
            passed=$((passed + 1))
        else
            fail "argument '$word': $expected hints are expected"
        fi
    done
}

# The program's own name is not an argument, and may be any bytes.
check_own_name() {
    local folder=$scratch/$'folder-\xff'
    mkdir "$folder"
    cp "$program" "$folder/gamefile"
    launch_by "$folder/gamefile" check "$accepted.nfg" >"$scratch/out" 2>"$scratch/err"
    judge_lines "a program whose name is not UTF-8" 0 table
}
