# shellcheck shell=bash disable=SC2034,SC2154
# Too little memory: a few pages more at a time until there is enough, and texts that no memory holds.

# The heading of a game file: the first player has so many strategies, and each other one.
heading() { # PLAYERS STRATEGIES
    echo 'NFG 1 R "" {'
    yes '"a player"' | head -n "$1"
    echo "} { $2"
    yes 1 | head -n $(($1 - 1))
    echo '}'
}

payoff_file() { # PLAYERS STRATEGIES
    heading "$1" "$2"
    yes 1/2 | head -n $(($1 * $2))
}

# All profiles have the same outcome.
outcome_file() { # PLAYERS STRATEGIES
    heading "$1" "$2"
    echo '{ { "an outcome"'
    yes 1/2 | head -n "$1"
    echo '} }'
    yes 1 | head -n "$2"
}

# Runs the program, as `run` does, with so much address space. By this setting the C library gives
# each vector pages of its own, so that the growth of each can be refused.
run_within() { # KIBIBYTES WORD..
    export GLIBC_TUNABLES=glibc.malloc.mmap_threshold=1
    launch_by prlimit --as=$(($1 * 1024)) -- "$program" "${@:2}" >"$scratch/out" 2>"$scratch/err"
    unset GLIBC_TUNABLES
}

# Whether the last run ended out of memory, with one line on standard error and nothing else. No
# other program is started for this, since it is asked of many runs.
wants_memory() {
    local lines line='^([AB]: )?E19( at [0-9]+\.\.[0-9]+)?$'
    mapfile -t lines <"$scratch/err"
    [[ $status == 5 && ! -s $scratch/out && ${#lines[@]} == 1 && ${lines[0]} =~ $line ]]
}

# Runs the program on a file with four pages more at a time, until there are enough for its answer. Each
# run before has to end out of memory, and they do so at many places.
check_page_by_page() { # NAME GAME-FILE LEAST-KIBIBYTES WORD..
    local name=$1 file=$2 least=$3 pages=0 places
    shift 3
    run "$@" <"$file"
    cp "$scratch/out" "$scratch/text"
    : >"$scratch/refusals"
    while run_within $((least + 4 * pages)) "$@" <"$file" && wants_memory && ((pages < 1024)); do
        echo "$(<"$scratch/err")" >>"$scratch/refusals"
        pages=$((pages + 4))
    done
    judge "$name, with $pages pages more than the least" "$scratch/text" "$nothing" 0
    places=$(sort -u "$scratch/refusals" | wc -l)
    if ((places >= 6)); then
        passed=$((passed + 1))
    else
        fail "$name: memory was refused at no more than $places places"
    fi
}

# Chance chooses one of twenty sets of two actions each, or a path through many sets of one action. So the
# player has 2^20 strategies, whose labels name the action at each set, in the reduced form too.
labels_file() { # SETS-OF-ONE-ACTION
    local set
    echo 'EFG 2 R "" { "a player" }'
    echo 'c "" 1 "" {'
    yes '"" 1/21' | head -n 21
    echo '} 0'
    for set in {1..20}; do
        echo "p \"\" 1 $set \"\" { \"\" \"\" } 0 t \"\" 0 t \"\" 0"
    done
    seq 21 $((20 + $1)) | sed 's/.*/p "" 1 & "" { "" } 0/'
    echo 't "" 0'
}

# What is asked for has gigabytes, so memory is refused before any of it is made: there is not time to
# fill what memory there is. The shell has the limits too, and would tell here of a signal.
check_giant() { # NAME SECONDS KIBIBYTES GAME-FILE [WORD..]
    local name=$1 seconds=$2 room=$3 file=$4
    shift 4
    status=0
    (
        ulimit -t "$seconds"
        ulimit -v "$room"
        "$program" "$@"
        exit "$?"
    ) <"$file" >"$scratch/out" 2>"$scratch/err" || status=$?
    if wants_memory; then
        passed=$((passed + 1))
    else
        judge_refusal "$name" "E19" 5
    fi
}

# The canonical text of an `outcome_file`.
outcome_text() { # PLAYERS STRATEGIES
    local line
    line=$(yes 1/2 | head -n "$1" | paste -sd ' ')
    echo "NFG 1 R \"\" { $(yes '"a player"' | head -n "$1" | paste -sd ' ') }"
    echo "{ { $(seq "$2" | sed 's/.*/"&"/' | paste -sd ' ') }$(yes ' { "1" }' | head -n $(($1 - 1)) | tr -d '\n') }"
    printf '""\n\n'
    yes "$line" | head -n "$2"
}

# Runs the program, and writes to the file `peak` how much memory it held at most, in KiB.
measured() { # WORD..
    python3 -c '
import resource, subprocess, sys
status = subprocess.run(sys.argv[2:]).returncode
with open(sys.argv[1], "w") as peak:
    peak.write(str(resource.getrusage(resource.RUSAGE_CHILDREN).ru_maxrss))
sys.exit(status)' "$scratch/peak" timeout 60 "$program" "$@"
}

# What was measured last held little memory.
judge_peak() { # NAME KIBIBYTES
    if (($(<"$scratch/peak") <= $2)); then
        passed=$((passed + 1))
    else
        fail "$1: it held $(<"$scratch/peak") KiB, more than $2"
    fi
}

# A text of 105 MB from a file of 2 MB is written and hashed piece by piece, in little memory.
check_pieces() {
    local most=32768 file=$scratch/shared.nfg
    outcome_file 25 1048576 >"$file"
    measured canon "$file" 2>"$scratch/err" | cmp -s - <(outcome_text 25 1048576)
    if [[ ${PIPESTATUS[*]} == "0 0" && ! -s $scratch/err ]]; then
        passed=$((passed + 1))
    else
        fail "a long text: $(head -n 1 "$scratch/err")"
    fi
    judge_peak "a long text" "$most"
    outcome_text 25 1048576 | sha256sum | sed "s|-\$|$file|" >"$scratch/text"
    status=0
    measured hash "$file" >"$scratch/out" 2>"$scratch/err" || status=$?
    judge "the hash of a long text" "$scratch/text" "$nothing" 0
    judge_peak "the hash of a long text" "$most"
}

# The table of a `labels_file` without sets of one action: nobody is paid anything.
labels_text() {
    python3 -c '
from itertools import product
labels = " ".join("\"" + "-".join(actions) + "\"" for actions in product("12", repeat=20))
print(f"NFG 1 R \"\" {{ \"a player\" }}\n{{ {{ {labels} }} }}\n\"\"\n")
print("0\n" * 2**20, end="")'
}

# The labels of 2^20 strategies, 42 MiB in a heading, are written from the strategies, which take 47,
# beside payoffs of 32. The heading is not held whole.
check_labels_pieces() {
    labels_file 0 >"$scratch/labels.efg"
    measured table "$scratch/labels.efg" 2>"$scratch/err" | cmp -s - <(labels_text)
    if [[ ${PIPESTATUS[*]} == "0 0" && ! -s $scratch/err ]]; then
        passed=$((passed + 1))
    else
        fail "a long heading: $(head -n 1 "$scratch/err")"
    fi
    judge_peak "a long heading" 98304
}

check_memory() {
    local least=1024
    # An empty file takes no memory beyond what the arguments take. With less, the program does not get there.
    while run_within "$least" <"$nothing" && [[ $status != 2 ]] && ((least < 16384)); do
        least=$((least + 16))
    done
    payoff_file 6000 4 >"$scratch/payoffs.nfg"
    outcome_file 9000 4 >"$scratch/outcomes.nfg"
    check_page_by_page "payoff version" "$scratch/payoffs.nfg" "$least"
    check_page_by_page "outcome version" "$scratch/outcomes.nfg" "$least"
    tree_file 3000 >"$scratch/tree.efg"
    check_page_by_page "extensive file" "$scratch/tree.efg" "$least"
    check_page_by_page "check" "$scratch/tree.efg" "$least" check
    check_page_by_page "table" "$scratch/tree.efg" "$least" table
    check_page_by_page "table --reduced" "$scratch/tree.efg" "$least" table --reduced
    tree_file 600 >"$scratch/path.efg"
    check_page_by_page "same --map" "$nothing" "$least" same --map "$scratch/path.efg" "$scratch/path.efg"
    outcome_file 1000 1048576 >"$scratch/giant.nfg"
    check_giant "a giant text" 60 400000 "$scratch/giant.nfg"
    check_pieces
    check_labels_pieces
    labels_file 20000 >"$scratch/giant.efg"
    check_giant "giant labels" 3 4000000 "$scratch/giant.efg" table
    check_giant "giant labels of the reduced form" 3 4000000 "$scratch/giant.efg" table --reduced
}
