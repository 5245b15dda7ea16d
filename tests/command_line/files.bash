# shellcheck shell=bash disable=SC2034,SC2154
# Inputs and outputs: files that cannot be opened, limits, streams that fail, and large outputs.

# A file of spaces ends too early; one byte above the limit is refused, whatever it is.
check_limit() {
    run < <(spaces "$limit")
    judge_refusal "as many spaces as the limit" "E3 at $limit..$limit" 2
    run < <(spaces $((limit + 1)))
    judge_refusal "one space above the limit" "E1 at $limit..$limit" 2
    run < <(yes '')
    judge_refusal "input without an end" "E1 at $limit..$limit" 2
}

check_reading() {
    run < <(cat "$accepted.nfg")
    judge "standard input a pipe" "$accepted.out" "$nothing" 0
    run <"$root"
    judge_refusal "standard input a folder" "E20" 4
    run <&-
    judge_refusal "standard input closed" "E20" 4
}

check_writing() {
    : >"$scratch/out"
    launch <"$accepted.nfg" >&- 2>"$scratch/err"
    judge_refusal "standard output closed" "E21" 4
    launch <"$accepted.nfg" >/dev/full 2>"$scratch/err"
    judge_refusal "standard output full" "E21" 4
    launch check "$accepted.nfg" >&- 2>"$scratch/err"
    judge_refusal "check: standard output closed" "E21" 4
    launch same "$accepted.nfg" "$accepted.nfg" >/dev/full 2>"$scratch/err"
    judge_refusal "same: standard output full" "E21" 4
    launch --help >/dev/full 2>"$scratch/err"
    judge_refusal "help: standard output full" "E21" 4
}

# Where the line of a refusal can't be written, its status stays.
check_lost_line() {
    : >"$scratch/err"
    launch <"$refused.nfg" >"$scratch/out" 2>&-
    judge "standard error closed" "$nothing" "$nothing" 2
    launch <"$refused.nfg" >"$scratch/out" 2>/dev/full
    judge "standard error full" "$nothing" "$nothing" 2
    launch tree >"$scratch/out" 2>&-
    judge "wrong usage, standard error closed" "$nothing" "$nothing" 3
}

check_files() {
    local missing=$scratch/missing socket=$scratch/socket closed=$scratch/closed.nfg
    run canon "$missing" <"$accepted.nfg"
    judge_refusal "a missing file" "E20" 4
    run canon "$root" <"$accepted.nfg"
    judge_refusal "a folder" "E20" 4
    run canon ./- <"$accepted.nfg"
    judge_refusal "a file named -" "E20" 4
    python3 -c 'import socket, sys; socket.socket(socket.AF_UNIX).bind(sys.argv[1])' "$socket"
    run check --explain "$socket"
    judge_refusal "a socket" "E20: cannot open $socket: No such device or address (os error 6)" 4
    cp "$accepted.nfg" "$closed"
    chmod a= "$closed"
    run_as_nobody check "$closed"
    judge_refusal "an unreadable file" "E20" 4
    run same "$missing" "$scratch/refused.nfg"
    judge_refusal "same: the first file is missing" "A: E20" 4
    run same "$scratch/refused.nfg" "$missing"
    judge_refusal "same: the second file is missing" "B: E20" 4
    run same "$missing" "$missing.too"
    judge_refusal "same: both files are missing" "A: E20" 4
    run same "$scratch/long.nfg" "$missing"
    judge_refusal "same: the first file is too long, the second missing" "B: E20" 4
    run same "$root" "$scratch/refused.nfg"
    judge_refusal "same: the first file is a folder" "A: E20" 4
    run same "$scratch/refused.nfg" "$scratch/long.nfg"
    judge_refusal "same: the second file is too long" "B: E1 at $limit..$limit" 2
    run same "$scratch/refused.nfg" "$missing.too"
    judge_refusal "same: files are opened before one is judged" "B: E20" 4
    run same "$scratch/refused.nfg" "$scratch/five.efg"
    judge_refusal "same: the first file is refused" "A: E4 at 26..29" 2
    run same --map "$scratch/five.efg" "$scratch/refused.nfg"
    judge_refusal "same: the second file is refused" "B: E4 at 26..29" 2
}

# A path on which each node has a set and an outcome of its own.
tree_file() { # NODES
    echo 'EFG 2 R "" { "a player" }'
    seq "$1" | sed 's|.*|p "" 1 & "" { "an action" } & "an outcome" { 1/2 }|'
    echo 't "" 0'
}

# A table of two players in outcome version, in which profiles share three rows, and its canonical text.
shared_file() { # ONE_COUNT OTHER_COUNT
    echo "NFG 1 R \"\" { \"a\" \"b\" } { $1 $2 } \"\" { { \"\" 1/2 -3 } { \"\" 40, 5 } }"
    seq $(($1 * $2)) | awk '{ print $1 % 3 }'
}

shared_text() { # ONE_COUNT OTHER_COUNT
    echo 'NFG 1 R "" { "a" "b" }'
    echo "{ { $(seq "$1" | sed 's/.*/"&"/' | tr '\n' ' ')} { $(seq "$2" | sed 's/.*/"&"/' | tr '\n' ' ')} }"
    printf '""\n\n'
    seq $(($1 * $2)) | awk '{ n = $1 % 3; print n == 0 ? "0 0" : n == 1 ? "1/2 -3" : "40 5" }'
}

# A large output arrives whole, in a file and in a pipe whose reader is slow. The path is as deep as it
# is long. The text of a table in outcome version comes in pieces: its heading is shorter than one, or
# longer.
check_large() {
    local tree=$scratch/large.efg text=$scratch/large.out nodes=100000 counts
    tree_file "$nodes" >"$tree"
    sed '1a ""\n' "$tree" >"$text"
    run canon "$tree"
    judge "a large output to a file" "$text" "$nothing" 0
    launch canon "$tree" 2>"$scratch/err" | (
        sleep 0.2
        cat
    ) >"$scratch/out"
    judge "a large output to a pipe" "$text" "$nothing" 0
    for counts in "300 400" "2 30000"; do
        # shellcheck disable=SC2086
        shared_file $counts >"$scratch/shared.nfg"
        # shellcheck disable=SC2086
        shared_text $counts >"$text"
        run canon "$scratch/shared.nfg"
        judge "a text in pieces, of a table with $counts strategies" "$text" "$nothing" 0
    done
}

# Each file is opened once, A and then B, and both before either is read. The files are pipes: who
# writes one waits until it is opened, so another order, or opening one again, takes too long.
check_openings() {
    local a=$scratch/a.pipe b=$scratch/b.pipe options
    mkfifo "$a" "$b"
    for options in "" --map --explain; do
        {
            exec 3>"$a" 4>"$b"
            cat "$scratch/five.efg" >&4
            exec 4>&-
            cat "$scratch/five.efg" >&3
            exec 3>&-
        } &
        # (no option is no word)
        # shellcheck disable=SC2086
        run same $options "$a" "$b"
        printf 'same\n' >"$scratch/lines"
        [[ $options != --map ]] ||
            printf '%s\n' "set 0 9 9" "set 1 7 7" "set 1 3 3" "outcome 4 4" >>"$scratch/lines"
        judge "same ${options:-without options}: both files are opened before either is read" \
            "$scratch/lines" "$nothing" 0
        kill $! 2>/dev/null
        wait
    done
    for options in canon check table; do
        cat "$scratch/refused.nfg" >"$a" &
        run "$options" "$a"
        judge_refusal "$options: the file is opened once" "E4 at 26..29" 2
        kill $! 2>/dev/null
        wait
        cat "$scratch/refused.nfg" >"$a" &
        run "$options" --explain "$a"
        cp "$scratch/err" "$scratch/told"
        run "$options" --explain "$scratch/refused.nfg"
        sed "s|^$scratch/refused.nfg|$a|" "$scratch/err" >"$scratch/expected"
        cp "$scratch/told" "$scratch/err"
        judge "$options --explain: the file is opened once" "$nothing" "$scratch/expected" 2
        kill $! 2>/dev/null
        wait
    done
    rm "$a" "$b"
}
