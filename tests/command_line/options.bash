# shellcheck shell=bash disable=SC2034,SC2154
# Options that may stand together: each pair of them is heeded.

check_options() {
    check_explain_beside
    check_names_beside
    check_lists
    check_quiet
    check_pairs
}

# `--explain` leaves the answer as it is, whatever else is asked for, and explains what is refused.
check_explain_beside() {
    local a=$scratch/prize.efg b=$scratch/names.efg five=$scratch/five.efg copy=$scratch/copy.efg order
    local refused=$scratch/refused.nfg
    run check --explain "$refused"
    cp "$scratch/err" "$scratch/explained"
    run canon --no-names "$b"
    cp "$scratch/out" "$scratch/unnamed"
    for order in "--explain --no-names" "--no-names --explain"; do
        # shellcheck disable=SC2086
        run canon $order "$b" <"$nothing"
        judge "canon $order" "$scratch/unnamed" "$nothing" 0
        # shellcheck disable=SC2086
        run canon $order <"$b"
        judge "canon $order of standard input" "$scratch/unnamed" "$nothing" 0
        # shellcheck disable=SC2086
        run canon $order "$refused"
        judge "canon $order of a refused file" "$nothing" "$scratch/explained" 2
        # shellcheck disable=SC2086
        run same $order "$a" "$b"
        judge_lines "same $order" 0 same
        # shellcheck disable=SC2086
        run same $order "$a" "$refused"
        judge "same $order with a refused file" "$nothing" "$scratch/explained" 2
    done
    run canon --explain "$b"
    judge_differs "canon --explain" "$scratch/unnamed"
    run same --explain "$a" "$b"
    judge_lines "same --explain" 1 different
    for order in "--explain --map" "--map --explain"; do
        # shellcheck disable=SC2086
        run same $order "$five" "$copy"
        judge_lines "same $order" 0 same "set 0 9 2" "set 1 7 3" "set 1 3 8" "outcome 4 2"
        # shellcheck disable=SC2086
        run same $order "$copy" "$five"
        judge_lines "same $order, the other way" 0 same "set 0 2 9" "set 1 3 7" "set 1 8 3" "outcome 2 4"
        # shellcheck disable=SC2086
        run same $order "$refused" "$five"
        judge "same $order with a refused file" "$nothing" "$scratch/explained" 2
    done
    check_reduced_beside
}

# A tree whose reduced form has fewer strategies than its form, and one whose payoffs overflow at another
# profile of the reduced form than of the form.
check_reduced_beside() {
    local tree=$scratch/ending.efg great=$scratch/great.efg order
    echo 'EFG 2 R "" { "A" } p "" 1 1 "" { "a" "b" } 0 t "" 0 p "" 1 2 "" { "c" "d" } 1 "" { 1 }
        t "" 2 "" { 170141183460469231731687303715884105727 } t "" 0' >"$great"
    echo 'EFG 2 R "s" { "A" } p "" 1 1 "i" { "a" "b" } 0 t "" 1 "x" { 1 }
        p "" 1 2 "j" { "c" "d" } 0 t "" 2 "y" { 2 } t "" 3 "z" { 3 }' >"$tree"
    printf 'NFG 1 R "s" { "A" }\n{ { "1-*" "2-1" "2-2" } }\n""\n\n1\n2\n3\n' >"$scratch/reduced"
    for order in "--explain --reduced" "--reduced --explain"; do
        # shellcheck disable=SC2086
        run table $order "$tree"
        judge "table $order" "$scratch/reduced" "$nothing" 0
        # shellcheck disable=SC2086
        run table $order <"$tree"
        judge "table $order of standard input" "$scratch/reduced" "$nothing" 0
        # shellcheck disable=SC2086
        run table $order "$great"
        judge_refusal "table $order of great payoffs" "overflow at profile 2: the expected payoffs at profile 2\
 cannot be worked out within 127 bits" 2
    done
    run table --explain "$tree"
    judge_differs "table --explain" "$scratch/reduced"
    run table "$great"
    judge_refusal "table of great payoffs" "overflow at profile 3" 2
}

# Expects an answer that is not this one.
judge_differs() { # NAME OTHER-FILE
    if [[ $status == 0 && -s $scratch/out && ! -s $scratch/err ]] && ! cmp -s "$2" "$scratch/out"; then
        passed=$((passed + 1))
    else
        fail "$1: another answer is expected, and status is $status"
    fi
}

# What `duplicates` writes of two files that differ in names alone, and what `hash` does, with `--no-names`.
expect_unnamed() {
    printf '%s\n' "$scratch/prize.efg" "$scratch/names.efg" >"$scratch/group"
    {
        hash_of "$scratch/names.efg" "$scratch/prize.efg" --no-names
        hash_of "$scratch/prize.efg" "$scratch/names.efg" --no-names
    } >"$scratch/hashes"
}

# `--no-names` beside what else `hash` and `duplicates` have.
check_names_beside() {
    local list=$scratch/pair
    expect_unnamed
    printf '%s\0' "$scratch/prize.efg" "$scratch/names.efg" >"$list"
    run hash --no-names --files-from "$list" --null --quiet
    judge "hash with all options" "$scratch/hashes" "$nothing" 0
    run duplicates --quiet -0 --files-from "$list" --no-names
    judge "duplicates with all options" "$scratch/group" "$nothing" 1
    run duplicates --files-from "$list" -0
    judge "duplicates of other names, in a list" "$nothing" "$nothing" 0
    run hash --quiet --no-names <"$scratch/names.efg"
    hash_of "$scratch/names.efg" - --no-names >"$scratch/lines"
    judge "hash --no-names of standard input" "$scratch/lines" "$nothing" 0
    run duplicates "$scratch/prize.efg" --no-names "$scratch/names.efg" --quiet
    judge "duplicates --no-names --quiet" "$scratch/group" "$nothing" 1
}

# Lists with zero bytes, for `hash` and for `duplicates`, in a file and on standard input.
check_lists() {
    local list=$scratch/pair five=$scratch/five.efg copy=$scratch/copy.efg null
    printf '%s\n' "$five" "$copy" >"$scratch/group"
    {
        hash_of "$five" "$five"
        hash_of "$copy" "$copy"
    } >"$scratch/hashes"
    printf '%s\0' "$five" "$copy" >"$list"
    for null in -0 --null; do
        run hash "$null" --files-from "$list"
        judge "hash $null of a list" "$scratch/hashes" "$nothing" 0
        run hash --files-from - "$null" <"$list"
        judge "hash $null of a list on standard input" "$scratch/hashes" "$nothing" 0
        run duplicates "$null" --files-from "$list"
        judge "duplicates $null of a list" "$scratch/group" "$nothing" 1
        run duplicates --files-from - "$null" <"$list"
        judge "duplicates $null of a list on standard input" "$scratch/group" "$nothing" 1
    done
}

# `--quiet` changes no answer; what a terminal is told is in collections.bash. A folder that is named
# twice is read twice by `hash`, and once by `duplicates`.
check_quiet() {
    local five=$scratch/five.efg copy=$scratch/copy.efg folder=$scratch/twice
    run hash --quiet "$five" "$copy"
    judge "hash --quiet" "$scratch/hashes" "$nothing" 0
    run duplicates "$five" --quiet "$copy"
    judge "duplicates --quiet" "$scratch/group" "$nothing" 1
    mkdir "$folder"
    cp "$five" "$copy" "$folder"
    run hash "$folder" "$folder/"
    sed "s|  $scratch/|  $folder/|" "$scratch/hashes" | sort -k 2 >"$scratch/lines"
    cat "$scratch/lines" "$scratch/lines" >"$scratch/expected"
    judge "hash of a folder twice" "$scratch/expected" "$nothing" 0
    run duplicates "$folder" "$folder"
    judge_lines "duplicates of a folder twice" 1 "$folder"/{copy,five}.efg
}

# Each two options of a command that takes several files, and `--quiet` beside each. `hash` has them in one
# order, and `duplicates` in the other. The options of `canon` stand beside `--check` and `--write`; what
# these show at a terminal without other options is in collections.bash.
check_pairs() {
    local options=(no-names files-from null zero explain quiet) first second mode beside
    launch canon <"$scratch/five.efg" >"$scratch/titled.efg"
    launch canon --no-names <"$scratch/five.efg" >"$scratch/untitled.efg"
    for ((first = 0; first < ${#options[@]}; first++)); do
        for ((second = first + 1; second < ${#options[@]}; second++)); do
            check_together hash "${options[first]}" "${options[second]}"
            check_together duplicates "${options[second]}" "${options[first]}"
        done
    done
    check_together hash shown "${options[@]:0:5}"
    check_together duplicates shown "${options[@]:0:5}"
    for mode in check write; do
        for beside in "no-names $mode" "$mode explain" "$mode no-names explain" "quiet $mode no-names" \
            "explain $mode quiet" "shown $mode no-names explain"; do
            # shellcheck disable=SC2086
            check_together canon $beside
        done
    done
    for beside in "explain quiet" "quiet explain" "shown explain"; do
        # shellcheck disable=SC2086
        check_together check $beside
    done
}

# Runs a command with options over several files, and judges what it writes, and what `canon --write` leaves
# in the files. What is expected follows from each option by itself. With `quiet`, standard error is a
# terminal, and the first file comes late; the word `shown`, which is no option, means the same without
# `--quiet`.
check_together() { # COMMAND OPTION..
    local command=$1 given=" ${*:2} " folder=$scratch/together list=$scratch/listed files words=() text wanted=0
    lay_out
    set_words "${@:2}"
    write_together | ended_by zero >"$scratch/lines"
    tell_together >"$scratch/expected"
    if has explain; then
        wanted=2
    elif [[ $command == duplicates ]] || has check; then
        wanted=1
    fi
    if has quiet || has shown; then
        run_at_terminal piped "$scratch/untitled.efg" "$command" "${words[@]}"
        ! has shown || drop_later_counts ${#files[@]}
    else
        run "$command" "${words[@]}"
    fi
    judge "$command with ${*:2}" "$scratch/lines" "$scratch/expected" "$wanted"
    if has write; then
        cat "$folder/again.efg" "$folder/named.efg" >"$scratch/out" && : >"$scratch/err"
        cat "$scratch/untitled.efg" "$text" >"$scratch/expected"
        judge "$command with ${*:2}: the files" "$scratch/expected" "$nothing" "$wanted"
    fi
}

# Whether an option is given to `check_together`.
has() { # OPTION
    [[ $given == *" $1 "* ]]
}

# The lines of standard input, ended by zero bytes if there is an option for it.
ended_by() { # OPTION
    if has "$1"; then
        tr '\n' '\0'
    else
        cat
    fi
}

# The files: a canonical text without names, the same game in another layout, and the same with names, whose
# canonical text is `text`; to explain, a file that is refused too.
lay_out() {
    rm -rf "$folder" && mkdir "$folder"
    files=("$folder"/{first,again,named}.efg)
    cp "$scratch/untitled.efg" "${files[0]}"
    { cat "$scratch/untitled.efg" && echo; } >"${files[1]}"
    cp "$scratch/titled.efg" "${files[2]}"
    text=$scratch/titled.efg
    if has no-names; then
        text=$scratch/untitled.efg
    fi
    if has quiet || has shown; then
        files[0]=$scratch/late.efg
    fi
    if has explain; then
        cp "$scratch/refused.nfg" "$folder"
        files+=("$folder/refused.nfg")
    fi
}

# The words after the command: the options in their order, and the files, if no list names them. --null is
# wrong usage without a list.
set_words() { # OPTION..
    local option
    for option in "$@"; do
        case $option in
        shown) ;;
        files-from) words+=(--files-from "$list") ;;
        *) words+=("--$option") ;;
        esac
    done
    printf '%s\n' "${files[@]}" | ended_by null >"$list"
    if has null && ! has files-from; then
        words+=(--files-from "$list")
    elif ! has files-from; then
        words+=("${files[@]}")
    fi
}

# What is expected on standard output, in lines.
write_together() {
    local hash
    case $command in
    hash)
        hash=$(sha256sum <"$scratch/untitled.efg" | cut -d ' ' -f 1)
        printf '%s  %s\n' "$hash" "${files[0]}" "$hash" "${files[1]}"
        printf '%s  %s\n' "$(sha256sum <"$text" | cut -d ' ' -f 1)" "${files[2]}"
        ;;
    check)
        printf '%s: tree\n' "${files[@]:0:3}"
        ;;
    duplicates)
        printf '%s\n' "${files[@]:0:2}"
        ! has no-names || echo "${files[2]}"
        ;;
    canon)
        ! has check || echo "${files[1]}"
        ! has check || ! has no-names || echo "${files[2]}"
        ;;
    esac
}

# What is expected on standard error.
tell_together() {
    local erase=$'\r\e[K'
    ! has shown || printf '%s1 of %d files%s' "$erase" ${#files[@]} "$erase"
    ! has explain || launch check --explain "$folder/refused.nfg" 2>&1
    ! has shown || printf '%s' "$erase"
}
