# shellcheck shell=bash disable=SC2034,SC2154
# `table` and `table --reduced`, over worked trees, and trees that have no table.

# One player has so many sets of two actions in a chain, where the first action ends.
chain_file() { # SETS
    echo 'EFG 2 R "" { "a player" }'
    seq "$1" | sed 's|.*|p "" 1 & "" { "end" "go on" } 0\nt "" 0|'
    echo 't "" 0'
}

# Its reduced form: the play ends at one of the sets, or goes on at each.
chain_form() { # SETS
    local set before="" after labels=""
    for ((set = 1; set <= $1; set++)); do
        after=$(yes -- '-*' | head -n $(($1 - set)) | tr -d '\n')
        labels+="\"${before}1$after\" "
        before+=2-
    done
    printf 'NFG 1 R "" { "a player" }\n{ { %s"%s" } }\n""\n\n' "$labels" "${before%-}"
    yes 0 | head -n $(($1 + 1))
}

# A player moves without knowing how chance did, and has a payoff on the way.
write_bonus() {
    cat >"$scratch/bonus.efg" <<'END'
EFG 2 R "g" { "A" "B" }
c "" 1 "n" { "h" 1/2 "t" 1/2 } 0
p "" 1 1 "i" { "L" "R" } 1 "bonus" { 1 0 }
t "" 2 "x" { 2 0 }
t "" 0
p "" 1 1 0
t "" 0
t "" 3 "y" { 3 1 }
END
    cat >"$scratch/form.nfg" <<'END'
NFG 1 R "g" { "A" "B" }
{ { "1" "2" } { "" } }
""

3/2 0
2 1/2
END
}

# Writes a tree as a table.
check_form() { # NAME TREE FORM-LINES WORD..
    local name=$1
    printf '%s\n' "$2" >"$scratch/tree.efg"
    printf '%b' "$3" >"$scratch/lines"
    run "${@:4}" <"$scratch/tree.efg"
    judge "$name" "$scratch/lines" "$nothing" 0
}

# Worked trees and their forms, by all strategies and by the reduced ones.
check_forms() {
    local words head='NFG 1 R "s" { "A" }\n' ending='EFG 2 R "s" { "A" } p "" 1 1 "i" { "a" "b" } 0
        t "" 1 "x" { 1 } p "" 1 2 "j" { "c" "d" } 0 t "" 2 "y" { 2 } t "" 3 "z" { 3 }'
    for words in table "table --reduced"; do
        # shellcheck disable=SC2086
        {
            check_form "$words of an end" 'EFG 2 R "s" { "A" } t "" 0' "$head"'{ { "" } }\n""\n\n0\n' $words
            check_form "$words of a zero" 'EFG 2 R "s" { "A" } t "" 1 "" { 0 }' \
                "$head"'{ { "" } }\n""\n\n0\n' $words
            check_form "$words of a comment" 'EFG 2 R "s" { "A" } "c" p "" 1 1 "i" { "L" "R" } 0
                t "" 1 "x" { 5 } t "" 1' "$head"'{ { "1" "2" } }\n"c"\n\n5\n5\n' $words
            check_form "$words of nobody" 'EFG 2 R "" { } t "" 0' 'NFG 1 R "" { }\n{ }\n""\n\n\n' $words
            check_form "$words, both ways" 'EFG 2 R "s" { "A" } p "" 1 1 "i" { "a" "b" } 0
                p "" 1 2 "j" { "c" "d" } 0 t "" 0 t "" 0 p "" 1 2 0 t "" 0 t "" 0' \
                "$head"'{ { "1-1" "1-2" "2-1" "2-2" } }\n""\n\n0\n0\n0\n0\n' $words
        }
    done
    check_form "table of an ending" "$ending" \
        "$head"'{ { "1-1" "1-2" "2-1" "2-2" } }\n""\n\n1\n1\n2\n3\n' table
    check_form "table --reduced of an ending" "$ending" \
        "$head"'{ { "1-*" "2-1" "2-2" } }\n""\n\n1\n2\n3\n' table --reduced
}

# Trees that have no table.
write_without_table() {
    local greatest=170141183460469231731687303715884105727
    echo 'EFG 2 R "" { "A" } p "" 1 1 "" { "a" "b" } 1 "" { -1 } t "" 0
        p "" 1 2 "" { "c" } 2 "" { '"$greatest"' } t "" 3 "" { 1 }' >"$scratch/overflow.efg"
    chain_file 21 >"$scratch/chain.efg"
}

check_table() {
    local words
    write_bonus
    run table "$scratch/bonus.efg" <"$nothing"
    judge "table bonus.efg" "$scratch/form.nfg" "$nothing" 0
    run table <"$scratch/form.nfg"
    judge "table of a table" "$scratch/form.nfg" "$nothing" 0
    run table --reduced "$scratch/bonus.efg" <"$nothing"
    judge "table --reduced bonus.efg" "$scratch/form.nfg" "$nothing" 0
    run table --reduced <"$scratch/form.nfg"
    judge "table --reduced of a table" "$scratch/form.nfg" "$nothing" 0
    chain_file 20 >"$scratch/chain.efg"
    chain_form 20 >"$scratch/chain.nfg"
    run table "$scratch/chain.efg" --reduced
    judge "table --reduced of a chain" "$scratch/chain.nfg" "$nothing" 0
    write_without_table
    for words in table "table --reduced"; do
        # shellcheck disable=SC2086
        run $words "$scratch/overflow.efg"
        judge_refusal "$words overflow.efg" "overflow at profile 2" 2
        # shellcheck disable=SC2086
        run $words "$scratch/chain.efg"
        judge_refusal "$words chain.efg" "too many profiles" 2
        # shellcheck disable=SC2086
        run $words "$scratch/refused.nfg"
        judge_refusal "$words refused.nfg" "E4 at 26..29" 2
    done
    launch table "$scratch/bonus.efg" >/dev/full 2>"$scratch/err"
    : >"$scratch/out"
    judge_refusal "table: standard output full" "E21" 4
}
