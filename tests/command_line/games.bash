# shellcheck shell=bash disable=SC2034,SC2154
# Small games in files of their own, for `same` and for collections.

write_games() {
    cat >"$scratch/five.efg" <<'END'
EFG 2 R "five" { "A" }
c "" 9 "n" { "h" 0.5 "t" 1/2 } 0
p "" 1 7 "i" { "L" } 0
c "" 9 "n" { "h" 1/2 "t" 0.50 } 0
t "" 0
t "" 0
p "" 1 3 "j" { "R" } 4 "w" { 1e-1 }
t "" 4
END
    sed 's/^c "" 9/c "" 2/; s/1 7/1 3/; s/1 3 "j"/1 8 "j"/; s/4 "w"/2 "w"/; s/^t "" 4/t "" 2/' \
        "$scratch/five.efg" >"$scratch/copy.efg"
    echo 'EFG 2 R "s" { "A" } p "" 1 1 "i" { "L" "R" } 0 t "" 1 "x" { 5 } t "" 1' >"$scratch/prize.efg"
    echo 'EFG 2 R "q" { "A" } p "w" 1 1 "k" { "L" "R" } 0 t "" 1 "v" { 5 } t "" 1' >"$scratch/names.efg"
    echo 'EFG 2 R "s" { "A" } p "" 1 1 "i" { "l" "R" } 0 t "" 1 "x" { 5 } t "" 1' >"$scratch/label.efg"
    echo 'EFG 2 R "s" { "A" } p "" 1 1 "i" { "L" "R" } 0 t "" 1 "x" { 5 } t "" 2 "x" { 5 }' >"$scratch/prizes.efg"
    echo 'EFG 2 R "s" { "A" } c "" 1 "n" { "h" 1/2 "t" 1/2 } 0
        p "" 1 1 "i" { "L" } 0 t "" 0 p "" 1 1 0 t "" 0' >"$scratch/unseen.efg"
    echo 'EFG 2 R "s" { "A" } c "" 1 "n" { "h" 1/2 "t" 1/2 } 0
        p "" 1 1 "i" { "L" } 0 t "" 0 p "" 1 2 "i" { "L" } 0 t "" 0' >"$scratch/seen.efg"
    echo 'EFG 2 R "s" { "A" } t "" 0' >"$scratch/null.efg"
    echo 'EFG 2 R "s" { "A" } t "" 1 "" { 0 }' >"$scratch/zero.efg"
    echo 'EFG 2 R "" { "A" "B" } p "" 2 05 "" { "" } 9 "" { 0 0 } p "" 1 5 "" { "" } 3 "" { 0 0 }
        c "" 6 "" { "" 1 } 9 t "" 0' >"$scratch/second.efg"
    echo 'NFG 1 R "z" { "A" "B" } { 2 1 } { { "u" 1 2 } } 1 0' >"$scratch/outcomes.nfg"
    echo 'NFG 1 R "z" { "A" "B" } { 2 1 } 1 2 0 0' >"$scratch/payoffs.nfg"
    echo 'EFG 2 R "" { } t "" 0' >"$scratch/nobody.efg"
    echo 'NFG 1 R "z" { "A" } { 1 } one' >"$scratch/refused.nfg"
    spaces $((limit + 1)) >"$scratch/long.nfg"
}
