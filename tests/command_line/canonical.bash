# shellcheck shell=bash disable=SC2034,SC2154
# `canon --check` and `canon --write`, over files and folders.

# Files, of which some are canonical: named are those that are not.
check_canonical_files() {
    local folder=$scratch/canonical five refused=$scratch/refused.nfg
    mkdir "$folder" && five=$folder/five.efg
    cp "$scratch/five.efg" "$five"
    launch canon <"$five" >"$folder/text.efg"
    launch canon --no-names <"$scratch/prize.efg" >"$folder/unnamed.efg"
    cp "$accepted.out" "$folder/table.nfg"
    run canon --check "$folder/text.efg" "$folder/table.nfg"
    judge "canon --check of canonical files" "$nothing" "$nothing" 0
    run canon --check "$five" "$folder/text.efg" "$accepted.nfg"
    judge_lines "canon --check of files that are not canonical" 1 "$five" "$accepted.nfg"
    run canon --check "$folder"
    judge_lines "canon --check of a folder" 1 "$five"
    run canon --check --no-names "$folder/unnamed.efg" "$scratch/prize.efg"
    judge_lines "canon --check --no-names" 1 "$scratch/prize.efg"
    run canon --check "$five" "$refused" "$folder/missing"
    echo "$five" >"$scratch/lines"
    printf '%s: E4 at 26..29\n%s: E20\n' "$refused" "$folder/missing" >"$scratch/expected"
    judge "canon --check of refused and missing files" "$scratch/lines" "$scratch/expected" 4
    run canon --check <"$five"
    judge_lines "canon --check of standard input" 1 -
    run canon --check <"$folder/text.efg"
    judge "canon --check of canonical standard input" "$nothing" "$nothing" 0
    check_nearly_canonical "$folder/text.efg"
    cp "$five" "$folder/"$'a\nb.efg'
    run canon --check "$folder/"$'a\nb.efg'
    judge_lines "canon --check of a name with a line feed" 1 "\\$folder/a\\nb.efg"
    rm "$folder/"$'a\nb.efg'
    launch canon --check "$five" >/dev/full 2>"$scratch/err"
    : >"$scratch/out"
    judge_refusal "canon --check: standard output full" "E21" 4
    check_rewritten "$folder"
}

# A canonical text with a byte more, a byte less or another byte.
check_nearly_canonical() { # FILE
    local near=$scratch/near.efg
    { cat "$1" && echo; } >"$near"
    run canon --check "$near"
    judge_lines "canon --check of a text with a line more" 1 "$near"
    head -c -1 "$1" >"$near"
    run canon --check "$near"
    judge_lines "canon --check of a text without its last line feed" 1 "$near"
    sed '1 s/ /  /' "$1" >"$near"
    run canon --check "$near"
    judge_lines "canon --check of a text with a space more" 1 "$near"
    rm "$near"
}

# What a file is and when it was changed.
state_of() { # FILE
    stat -c '%i %a %Y' "$1" && sha256sum <"$1"
}

# Files that are replaced, with their owner and permissions and through links, and files that stay as
# they are.
check_rewritten() { # FOLDER
    local folder=$1 five=$1/five.efg text=$1/text.efg refused=$1/refused.nfg before owner
    cp "$scratch/refused.nfg" "$refused"
    chmod 640 "$five"
    ((EUID != 0)) || chown 65534:65534 "$five"
    owner=$(stat -c %u:%g "$five")
    touch -d 2001-01-01 "$text" "$refused"
    before=$(state_of "$text" && state_of "$refused")
    ln -s five.efg "$folder/linked.efg"
    run canon --write "$folder/linked.efg" "$text" "$refused"
    echo "$refused: E4 at 26..29" >"$scratch/expected"
    judge "canon --write" "$nothing" "$scratch/expected" 2
    launch canon <"$scratch/five.efg" >"$scratch/lines"
    cp "$five" "$scratch/out" && : >"$scratch/err"
    [[ -L $folder/linked.efg && $(stat -c %a "$five") == 640 && $before == "$(state_of "$text" && state_of "$refused")" ]]
    status=$?
    judge "canon --write: the file behind a link, with its permissions, and no other" "$scratch/lines" "$nothing" 0
    if ((EUID == 0)); then
        [[ $(stat -c %u:%g "$five") == "$owner" ]]
        status=$?
        judge "canon --write: the file stays its owner's" "$scratch/lines" "$nothing" 0
    else
        echo "NOT RUN canon --write, owner: only root may give a file away"
    fi
    rm "$refused"
    cp "$accepted.nfg" "$folder/other.nfg"
    run canon --write "$folder"
    judge "canon --write of a folder" "$nothing" "$nothing" 0
    cp "$folder/other.nfg" "$scratch/out"
    judge "canon --write of a folder: a file in it" "$accepted.out" "$nothing" 0
    ls -A "$folder" >"$scratch/out"
    judge_lines "canon --write leaves no other files" 0 five.efg linked.efg other.nfg table.nfg text.efg unnamed.efg
    cp "$scratch/prize.efg" "$folder/prize.efg"
    run canon --write --no-names "$folder/prize.efg"
    cp "$folder/prize.efg" "$scratch/out"
    judge "canon --write --no-names" "$folder/unnamed.efg" "$nothing" 0
    check_not_rewritten "$folder"
    rm -r "$folder"
}

# Files that cannot be replaced: in a folder that cannot be written, and a pipe.
check_not_rewritten() { # FOLDER
    local closed=$1/closed pipe=$1/pipe
    mkdir "$closed" && cp "$scratch/five.efg" "$closed"
    chmod 755 "$1" "$closed" && chmod 644 "$closed/five.efg"
    chmod a-w "$closed"
    run_as_nobody canon --write --explain "$closed/five.efg" "$1/missing"
    printf '%s: E21: cannot replace %s: Permission denied (os error 13)\n' "$closed/five.efg"{,} >"$scratch/expected"
    echo "$1/missing: E20: cannot open $1/missing: No such file or directory (os error 2)" >>"$scratch/expected"
    judge "canon --write in a folder that cannot be written" "$nothing" "$scratch/expected" 4
    cp "$closed/five.efg" "$scratch/out" && : >"$scratch/err" && status=0
    judge "canon --write: a file that cannot be replaced stays" "$scratch/five.efg" "$nothing" 0
    chmod 755 "$closed"
    mkfifo "$pipe"
    cat "$scratch/five.efg" >"$pipe" &
    run canon --write "$pipe"
    kill $! 2>/dev/null
    wait
    judge_refusal "canon --write of a pipe" "$pipe: E21" 4
    check_half_written "$1"
    check_too_long "$1"
}

# A text of which only the first KiB can be written.
check_half_written() { # FOLDER
    local folder=$1/half tree=$1/half/tree.efg
    mkdir "$folder"
    tree_file 100 >"$tree"
    cp "$tree" "$scratch/before"
    status=0
    (
        trap '' XFSZ
        ulimit -f 1
        exec timeout 60 "$program" canon --write "$tree"
    ) >"$scratch/out" 2>"$scratch/err" || status=$?
    printf '%s: E21\n' "$tree" >"$scratch/expected"
    judge "canon --write of a text that does not fit" "$nothing" "$scratch/expected" 4
    cp "$tree" "$scratch/out" && : >"$scratch/err" && status=0
    judge "canon --write of a text that does not fit: the file stays" "$scratch/before" "$nothing" 0
    ls -A "$folder" >"$scratch/out"
    judge_lines "canon --write of a text that does not fit leaves no other files" 0 tree.efg
}

# A file of 2 MB whose canonical text has 42 MB: one outcome, at 2^20 profiles.
check_too_long() { # FOLDER
    local folder=$1/long long=$1/long/long.nfg
    mkdir "$folder"
    {
        printf 'NFG 1 R "" {%s } {%s } ""\n' "$(printf ' "%d"' {1..20})" "$(printf ' 2%.0s' {1..20})"
        printf '{ { "" %s } }\n' "$(printf '0 %.0s' {1..20})"
        yes 1 | head -n $((1 << 20)) | tr '\n' ' '
    } >"$long"
    cp "$long" "$scratch/outcomes.nfg"
    run canon --write --explain "$folder"
    judge_refusal "canon --write of a text that is too long to be read again" \
        "$long: E21: cannot replace $long: file too large" 4
    run canon --write "$folder"
    judge_refusal "canon --write of such a text, without --explain" "$long: E21" 4
    ls -A "$folder" >"$scratch/out" && : >"$scratch/err" && status=0
    judge_lines "canon --write of such a text leaves no other files" 0 long.nfg
    cp "$long" "$scratch/out"
    judge "canon --write of such a text: the file stays" "$scratch/outcomes.nfg" "$nothing" 0
}
