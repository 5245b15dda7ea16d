# shellcheck shell=bash disable=SC2034
# What tests/library and tests/release check things with: they count, and show what fails.

room=$(mktemp -d) || exit 1
trap 'rm -rf "$room"' EXIT
passed=0
failed=0

# Runs a command that has to succeed, and shows what it wrote if it does not.
try() { # NAME COMMAND..
    local name=$1
    shift
    if "$@" > "$room/log" 2>&1; then
        passed=$((passed + 1))
    else
        failed=$((failed + 1))
        echo "FAILED $name"
        tail -n 20 "$room/log"
    fi
}

# Runs a test of many cases, whose last line ends in 'N passed, M failed'. It has to pass some, or say what is
# not run.
count() { # NAME COMMAND..
    local name=$1
    shift
    "$@" > "$room/log" 2>&1
    if [[ $? == 0 && $(tail -n 1 "$room/log") =~ ([0-9]+)\ passed,\ 0\ failed$ ]] &&
        { ((BASH_REMATCH[1] > 0)) || grep -q '^NOT RUN' "$room/log"; }; then
        grep '^NOT RUN' "$room/log"
        echo "$name: ${BASH_REMATCH[1]} passed"
        passed=$((passed + BASH_REMATCH[1]))
    else
        failed=$((failed + 1))
        echo "FAILED $name"
        tail -n 20 "$room/log"
    fi
}

# Whether a tool is here. If it is not, a line says what is not run, and the gate counts that as skipped.
have() { # CHECKS TOOL COMMAND..
    if ! "${@:3}" > /dev/null 2>&1; then
        echo "NOT RUN $1: there is no $2"
        return 1
    fi
}

# The same for a tool that a whole test cannot do without.
missing=0
need() { # TEST TOOL COMMAND..
    have "$@" || missing=$((missing + 1))
}

# Ends a test for which tools are missing. What could not be built without them has not failed.
stop_if_missing() { # TEST
    if ((missing > 0)); then
        echo "$1: 0 passed, 0 failed"
        exit 0
    fi
}

# What the build makes has to be there: a test without it has failed.
need_built() { # TEST WHAT FILE
    if [[ ! -e $3 ]]; then
        echo "FAILED $1: there is no $2"
        echo "$1: 0 passed, 1 failed"
        exit 1
    fi
}
