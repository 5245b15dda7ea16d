# shellcheck shell=bash disable=SC2034,SC2154
# `same` and texts without names, over pairs of games.

# Texts without names are equal exactly when the files are the same aside from names, and each is its
# own canonical text.
check_unnamed() { # A B NO-NAMES-STATUS
    local unequal=0
    run canon --no-names "$1"
    cp "$scratch/out" "$scratch/unnamed"
    run canon <"$scratch/unnamed"
    judge "canon of canon --no-names ${1##*/}" "$scratch/unnamed" "$nothing" 0
    run canon --no-names <"$2"
    cmp -s "$scratch/unnamed" "$scratch/out" || unequal=1
    if [[ $status == 0 && $unequal == "$3" ]]; then
        passed=$((passed + 1))
    else
        fail "canon --no-names ${1##*/} ${2##*/}: unequal is $unequal, and status is $status"
    fi
}

# Compares two games with each option.
check_pair() { # A B SAME-STATUS NO-NAMES-STATUS MAP-LINE..
    local a=$scratch/$1 b=$scratch/$2 kept=$3 aside=$4 answers=(same different)
    shift 4
    run same "$a" "$b" <"$nothing"
    judge_lines "same ${a##*/} ${b##*/}" "$kept" "${answers[kept]}"
    run same --no-names "$a" "$b" <"$nothing"
    judge_lines "same --no-names ${a##*/} ${b##*/}" "$aside" "${answers[aside]}"
    check_unnamed "$a" "$b" "$aside"
    run same "$a" --map "$b" <"$nothing"
    judge_lines "same --map ${a##*/} ${b##*/}" "$kept" "${answers[kept]}" "$@"
}

check_same() {
    cp "$accepted.nfg" "$scratch/table.nfg"
    check_pair five.efg copy.efg 0 0 "set 0 9 2" "set 1 7 3" "set 1 3 8" "outcome 4 2"
    check_pair copy.efg five.efg 0 0 "set 0 2 9" "set 1 3 7" "set 1 8 3" "outcome 2 4"
    check_pair table.nfg table.nfg 0 0
    check_pair table.nfg nobody.efg 1 1
    check_pair prize.efg names.efg 1 0
    check_pair prize.efg label.efg 1 1
    check_pair names.efg label.efg 1 1
    check_pair prize.efg prizes.efg 1 1
    check_pair unseen.efg seen.efg 1 1
    check_pair seen.efg unseen.efg 1 1
    check_pair null.efg zero.efg 1 1
    check_pair outcomes.nfg payoffs.nfg 0 0
    check_pair payoffs.nfg table.nfg 1 1
    check_pair nobody.efg nobody.efg 0 0
    check_pair second.efg second.efg 0 0 "set 0 6 6" "set 1 5 5" "set 2 5 5" "outcome 9 9" "outcome 3 3"
}
