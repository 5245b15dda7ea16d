# shellcheck shell=bash disable=SC2034,SC2154
# The page for `man`, its place after an install, and the commands that documents show.

# The commands and the options that help names, a line each.
named_by_help() {
    local command commands
    commands=$("$program" --help | sed -n '/^Commands:$/,/^$/s/^  \([a-z]*\) .*/\1/p')
    printf '%s\n' "$commands"
    "$program" --help | sed -n 's/^ .*\(--[a-z-]*\) .*/\1/p'
    for command in $commands; do
        "$program" help "$command" | sed -n 's/^ .*\(--[a-z-]*\) .*/\1/p'
    done
}

# Those that the page for `man` has entries of.
named_by_page() {
    sed 's/\\-/-/g' "$root/docs/gamefile.1" |
        sed -n '/^\.SH COMMANDS/,/^\.SH EXIT/{
            s/^\.BR \([a-z]*\) " .*/\1/p
            s/^\.B \(--[a-z-]*\)$/\1/p
            s/^\.BI \(--[a-z-]*\) .*$/\1/p
            s/^\.BR -[hV0z] .*\(--[a-z-]*\)$/\1/p
        }'
}

# The page is laid out without a warning. Where there is no groff, this is not run.
check_layout() {
    if ! command -v groff >/dev/null; then
        echo "NOT RUN docs/gamefile.1: there is no groff"
    elif groff -ww -man -Tutf8 "$root/docs/gamefile.1" 2>"$scratch/err" >/dev/null && [[ ! -s $scratch/err ]]; then
        passed=$((passed + 1))
    else
        fail "docs/gamefile.1: groff warns: $(head -n 1 "$scratch/err")"
    fi
}

# `make install` puts the program, linked for that, and its page in place, and the page names what help names.
check_page() {
    if diff <(named_by_help | sort -u) <(named_by_page | sort -u) >"$scratch/differs"; then
        passed=$((passed + 1))
    else
        fail "docs/gamefile.1 and help name other commands or options: $(tr '\n' ' ' <"$scratch/differs")"
    fi
    check_layout
    if make -s -o gamefile -C "$root" install PREFIX="$scratch/usr" &&
        cmp -s "$root/release/out/gamefile" "$scratch/usr/bin/gamefile" &&
        cmp -s "$root/docs/gamefile.1" "$scratch/usr/share/man/man1/gamefile.1"; then
        passed=$((passed + 1))
    else
        fail "make install: the program or its page is not in place"
    fi
}

# The hooks for pre-commit run `check`, `canon --check` and `canon --write` on game files, and on no others.
# A document shows the first one.
check_hooks() {
    local hooks=$root/.pre-commit-hooks.yaml entries files
    mapfile -t entries < <(sed -n 's/^  entry: gamefile //p' "$hooks")
    files=$(sed -n "s/^  files: '\(.*\)'$/\1/p" "$hooks" | sort -u)
    printf '%s\n' a.efg b/c.nfg D.EFG d.efg.txt efg | grep -E "$files" >"$scratch/out"
    : >"$scratch/err"
    status=0
    printf '%s\n' a.efg b/c.nfg D.EFG >"$scratch/expected"
    judge "files of the hooks" "$scratch/expected" "$nothing" 0
    sed -n '/^```yaml$/,/^```$/s/^      //p' "$root/docs/COLLECTIONS.md" >"$scratch/out"
    sed -n '/^- id: gamefile-check$/,/^  files/p' "$hooks" >"$scratch/expected"
    judge "the hook in docs/COLLECTIONS.md" "$scratch/expected" "$nothing" 0
    launch check --explain "$scratch/refused.nfg" 2>"$scratch/lines"
    echo "$accepted.nfg: table" >"$scratch/expected"
    # shellcheck disable=SC2086
    run ${entries[0]} "$accepted.nfg" "$scratch/refused.nfg"
    judge "the hook gamefile-check" "$scratch/expected" "$scratch/lines" 2
    echo "$accepted.nfg" >"$scratch/expected"
    # shellcheck disable=SC2086
    run ${entries[1]} "$accepted.nfg" "$scratch/refused.nfg"
    judge "the hook gamefile-canon" "$scratch/expected" "$scratch/lines" 2
    cp "$accepted.nfg" "$scratch/hooked.nfg"
    # shellcheck disable=SC2086
    run ${entries[2]} "$scratch/hooked.nfg" "$scratch/refused.nfg"
    judge "the hook gamefile-write" "$nothing" "$scratch/lines" 2
    cp "$scratch/hooked.nfg" "$scratch/out" && : >"$scratch/err"
    judge "the hook gamefile-write: the file" "$accepted.out" "$nothing" 2
}

# Counts what another script passes and fails, which its last line says. It has to count something.
check_by() { # SCRIPT WORD..
    local summary ended=0
    summary=$("$root/tests/$1" "${@:2}") || ended=$?
    printf '%s\n' "$summary" | grep -v "^$1: "
    if [[ $summary =~ $1:\ ([0-9]+)\ passed,\ ([0-9]+)\ failed$ ]] &&
        ((BASH_REMATCH[1] + BASH_REMATCH[2] > 0)); then
        passed=$((passed + BASH_REMATCH[1]))
        failed=$((failed + BASH_REMATCH[2]))
        ((ended == 0 || BASH_REMATCH[2] > 0)) || fail "tests/$1: its status is $ended"
    else
        fail "tests/$1: its last line counts nothing"
    fi
}

# The files and headings that documents link to are there, and the commands that documents show write
# what stands there.
check_documents() {
    check_hooks
    check_by links
    check_by transcripts README.md examples/README.md docs/COLLECTIONS.md
    # (tests/library runs those of docs/LIBRARY.md)
    (cd "$root" && grep -l '^\$ ' *.md docs/*.md examples/*.md python/*.md) >"$scratch/out"
    : >"$scratch/err"
    status=0
    judge_lines "documents that show commands" 0 README.md docs/{COLLECTIONS,LIBRARY}.md examples/README.md
}
