# shellcheck shell=bash disable=SC2034,SC2154
# `--explain`, of what is no place in a file, and of two files. tests/explained has all refusals.

check_explain() {
    local a=$scratch/five.efg b=$scratch/refused.nfg missing=$scratch/missing.efg words command
    words="E20: cannot open $missing: No such file or directory (os error 2)"
    for command in canon check table; do
        run "$command" --explain "$missing"
        judge_refusal "$command --explain of a missing file" "$words" 4
    done
    run check --explain "$scratch/"$'missing\e[31m\t\xc2\x9b\xe2\x80\xae.efg'
    judge_refusal "check --explain of a name with control characters" \
        "E20: cannot open $scratch/missing?[31m???.efg: No such file or directory (os error 2)" 4
    cp "$b" "$scratch/"$'refused\e[31m\n\t.nfg'
    run check --explain "$scratch/"$'refused\e[31m\n\t.nfg'
    judge_refusal "check --explain of a file whose name has control characters" \
        "$scratch/refused?[31m??.nfg:1:27: E4 at 26..29: \`one\` is not a number
  1 | NFG 1 R \"z\" { \"A\" } { 1 } one
    |                           ^^^
  hint: write 3, -0.5, 1e-3 or 1/3" 2
    run canon --explain "$root"
    judge_refusal "canon --explain of a folder" "E20: cannot read $root: Is a directory (os error 21)
  hint: \`check\`, \`hash\`, \`duplicates\`, \`canon --check\` and \`canon --write\` read folders" 4
    run same --explain "$a" "$missing"
    judge_refusal "same --explain with a missing file" "$words" 4
    run same "$a" --explain "$b"
    {
        echo "$b:1:27: E4 at 26..29: \`one\` is not a number"
        echo '  1 | NFG 1 R "z" { "A" } { 1 } one'
        echo '    |                           ^^^'
        echo '  hint: write 3, -0.5, 1e-3 or 1/3'
    } >"$scratch/expected"
    judge "same --explain with a refused file" "$nothing" "$scratch/expected" 2
    run same --explain "$b" "$a"
    judge "same --explain with a refused first file" "$nothing" "$scratch/expected" 2
    run same --explain "$a" "$scratch/label.efg"
    judge_lines "same --explain of other files" 1 different
    run check --explain < <(spaces $((limit + 1)))
    judge_refusal "check --explain of too many bytes" "<stdin>: E1 at $limit..$limit: the file is larger\
 than 16,777,216 bytes, the largest size that the program reads" 2
    launch canon --explain "$a" >/dev/full 2>"$scratch/err"
    : >"$scratch/out"
    judge_refusal "canon --explain, standard output full" \
        "E21: cannot write the output: No space left on device (os error 28)" 4
    run canon --explain <"$accepted.nfg"
    judge "canon --explain of a right file" "$accepted.out" "$nothing" 0
    check_explain_forms
}

check_explain_forms() {
    write_without_table
    run table --explain "$scratch/overflow.efg"
    judge_refusal "table --explain overflow.efg" "overflow at profile 2: the expected payoffs at profile 2\
 cannot be worked out within 127 bits" 2
    run table --reduced --explain "$scratch/chain.efg"
    judge_refusal "table --explain chain.efg" \
        "too many profiles: the strategic form has more than 1,048,576 strategy profiles" 2
}
