# shellcheck shell=bash disable=SC2034,SC2154
# Completion in bash and zsh offers what help names.

# The options that help names for a command, or before any command.
options_in_help() { # [COMMAND]
    launch help "$@" | grep -oE '^ +(-[a-zA-Z0-9], )?--[a-z-]+' | grep -oE -- '--[a-z-]+' | sort
}

# What bash offers for the last of these words, a line for each.
offered_by_bash() { # WORD..
    # shellcheck disable=SC2016
    bash -c 'source "$1" && shift && COMP_WORDS=("$@") COMP_CWORD=$(($# - 1)) && _gamefile &&
        printf "%s\n" "${COMPREPLY[@]}"' bash "$root/completions/gamefile.bash" "$@" | sort
}

check_completions() {
    local command commands
    : >"$scratch/err"
    commands=$(launch --help | sed -n '/^Commands:/,/^$/s/^  \([a-z]*\) .*/\1/p' | sort)
    offered_by_bash gamefile "" | grep -v '^--' >"$scratch/out"
    status=0
    echo "$commands" >"$scratch/expected"
    judge "commands that bash completes" "$scratch/expected" "$nothing" 0
    options_in_help >"$scratch/expected"
    offered_by_bash gamefile -- >"$scratch/out"
    judge "options before a command that bash completes" "$scratch/expected" "$nothing" 0
    for command in $(grep -v '^help$' <<<"$commands"); do
        options_in_help "$command" >"$scratch/expected"
        offered_by_bash gamefile "$command" -- >"$scratch/out"
        judge "options of $command that bash completes" "$scratch/expected" "$nothing" 0
    done
    touch "$scratch/offered.efg"
    offered_by_bash gamefile check "$scratch/offer" >"$scratch/out"
    echo "$scratch/offered.efg" >"$scratch/expected"
    judge "files that bash completes" "$scratch/expected" "$nothing" 0
    check_zsh_completion "$commands"
}

# The function for zsh names each command and each option of help, and no other option.
check_zsh_completion() { # COMMANDS
    local command
    {
        options_in_help
        for command in $(grep -v '^help$' <<<"$1"); do
            options_in_help "$command"
        done
    } | sort -u >"$scratch/expected"
    grep -oE -- '--[a-z][a-z-]*' "$root/completions/_gamefile" | sort -u >"$scratch/out"
    judge "options that zsh completes" "$scratch/expected" "$nothing" 0
    grep -oE "^ +'[a-z]+\[" "$root/completions/_gamefile" | grep -oE '[a-z]+' | sort >"$scratch/out"
    echo "$1" >"$scratch/expected"
    judge "commands that zsh completes" "$scratch/expected" "$nothing" 0
    if ! command -v zsh >/dev/null; then
        echo "NOT RUN completions/_gamefile: there is no zsh"
        return
    fi
    zsh -n "$root/completions/_gamefile" >"$scratch/out" 2>"$scratch/err"
    status=$?
    judge "zsh reads the function" "$nothing" "$nothing" 0
}
