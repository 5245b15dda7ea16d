# shellcheck shell=bash disable=SC2034,SC2154
# Runs of the program, compared with what is expected, for all parts of tests/cli.

# Runs a command with the caller's standard streams.
launch_by() { # COMMAND WORD..
    status=0
    timeout 60 "$@" || status=$?
}

# Runs the program with the arguments given.
launch() { # WORD..
    launch_by "$program" "$@"
}

# The same, with what it writes kept for `judge`.
run() { # WORD..
    launch "$@" >"$scratch/out" 2>"$scratch/err"
}

# The same as somebody who may not read each file.
run_as_nobody() { # WORD..
    local somebody=()
    if ((EUID == 0)); then
        chmod 711 "$scratch"
        install -m 755 "$program" "$scratch/program"
        somebody=(setpriv --reuid=65534 --regid=65534 --clear-groups "$scratch/program")
    fi
    launch_by "${somebody[@]:-$program}" "$@" >"$scratch/out" 2>"$scratch/err"
}

fail() { # MESSAGE
    failed=$((failed + 1))
    printf 'FAILED %s\n' "$1"
}

# Compares what the last run left with what is expected.
judge() { # NAME OUT-FILE ERR-FILE STATUS
    local differs=""
    cmp -s "$2" "$scratch/out" || differs+="; standard output differs"
    cmp -s "$3" "$scratch/err" || differs+="; standard error is '$(head -c 200 "$scratch/err" | tr -cd '[:print:]')'"
    [[ $status == "$4" ]] || differs+="; status is $status and not $4"
    if [[ -n $differs ]]; then
        fail "$1${differs/;/:}"
    else
        passed=$((passed + 1))
    fi
}

# Expects nothing on standard output, and one line on standard error.
judge_refusal() { # NAME LINE STATUS
    printf '%s\n' "$2" >"$scratch/line"
    judge "$1" "$nothing" "$scratch/line" "$3"
}

# Expects these lines on standard output, and nothing on standard error.
judge_lines() { # NAME STATUS LINE..
    local name=$1 status_wanted=$2
    shift 2
    printf '%s\n' "$@" >"$scratch/lines"
    judge "$name" "$scratch/lines" "$nothing" "$status_wanted"
}

spaces() { # COUNT
    head -c "$1" /dev/zero | tr '\0' ' '
}
