# shellcheck shell=bash disable=SC2034,SC2154
# `hash` and `duplicates`, over files, folders and lists, and what a terminal is told meanwhile.

# The line for a file's hash.
hash_of() { # FILE NAME OPTION..
    printf '%s  %s\n' "$(launch canon "${@:3}" <"$1" | sha256sum | cut -d ' ' -f 1)" "$2"
}

# Files by their names, refused ones and missing ones among them, and standard input.
check_hash_files() {
    local five=$scratch/five.efg copy=$scratch/copy.efg missing=$scratch/missing.efg
    run hash <"$five"
    hash_of "$five" - >"$scratch/lines"
    judge "hash of standard input" "$scratch/lines" "$nothing" 0
    run hash <"$scratch/refused.nfg"
    judge_refusal "hash of a refused standard input" "-: E4 at 26..29" 2
    run hash "$five" "$scratch/refused.nfg" "$copy"
    { hash_of "$five" "$five" && hash_of "$five" "$copy"; } >"$scratch/lines"
    echo "$scratch/refused.nfg: E4 at 26..29" >"$scratch/expected"
    judge "hash of three files" "$scratch/lines" "$scratch/expected" 2
    run hash "$missing" "$scratch/refused.nfg" "$five"
    hash_of "$five" "$five" >"$scratch/lines"
    printf '%s: E20\n%s: E4 at 26..29\n' "$missing" "$scratch/refused.nfg" >"$scratch/expected"
    judge "hash of a missing file" "$scratch/lines" "$scratch/expected" 4
    run hash --no-names "$scratch/prize.efg" "$scratch/names.efg"
    { hash_of "$scratch/names.efg" "$scratch/prize.efg" --no-names &&
        hash_of "$scratch/prize.efg" "$scratch/names.efg" --no-names; } >"$scratch/lines"
    judge "hash --no-names" "$scratch/lines" "$nothing" 0
    launch hash "$five" "$copy" >/dev/full 2>"$scratch/err"
    : >"$scratch/out"
    judge_refusal "hash: standard output full" "E21" 4
}

# A folder with all below it: names in letters of either case, in order of bytes; a link to its own
# folder, a folder that has the name of a game file, a name that is not UTF-8, and files of other kinds.
check_hash_folders() {
    local folder=$scratch/games
    mkdir -p "$folder/b/deep" "$folder/empty" "$folder/c.efg"
    cp "$scratch/five.efg" "$folder/b/deep/z.EFG"
    cp "$scratch/five.efg" "$folder/b/deep/A.efg"
    cp "$scratch/table.nfg" "$folder/a.Nfg"
    cp "$scratch/table.nfg" "$folder/b.nfg"
    cp "$scratch/table.nfg" "$folder/c.efg/d.nfg"
    mkdir "$folder/.hidden"
    cp "$scratch/table.nfg" "$folder/.hidden/e.nfg"
    cp "$scratch/table.nfg" "$folder/.f.nfg"
    echo other >"$folder/readme.txt"
    ln -s ../../games "$folder/b/deep/loop"
    ln -s ../b.nfg "$folder/b/linked.nfg"
    {
        hash_of "$scratch/table.nfg" "$folder/a.Nfg"
        hash_of "$scratch/five.efg" "$folder/b/deep/A.efg"
        hash_of "$scratch/five.efg" "$folder/b/deep/z.EFG"
        hash_of "$scratch/table.nfg" "$folder/b/linked.nfg"
        hash_of "$scratch/table.nfg" "$folder/b.nfg"
        hash_of "$scratch/table.nfg" "$folder/c.efg/d.nfg"
    } >"$scratch/lines"
    run hash "$folder"
    judge "hash of a folder" "$scratch/lines" "$nothing" 0
    ln -s games "$scratch/linked"
    run hash "$scratch/linked"
    sed "s|  $folder/|  $scratch/linked/|" "$scratch/lines" >"$scratch/expected"
    judge "hash of a link to a folder" "$scratch/expected" "$nothing" 0
    rm "$scratch/linked"
    run hash "$folder/.hidden" "$folder/.f.nfg"
    { hash_of "$scratch/table.nfg" "$folder/.hidden/e.nfg" &&
        hash_of "$scratch/table.nfg" "$folder/.f.nfg"; } >"$scratch/expected"
    judge "hash of what is hidden, and named" "$scratch/expected" "$nothing" 0
    run hash "$folder/empty" "$folder/c.efg" "$folder/empty/"
    hash_of "$scratch/table.nfg" "$folder/c.efg/d.nfg" >"$scratch/line"
    printf '%s: no game files\n' "$folder/empty" "$folder/empty/" >"$scratch/expected"
    judge "hash of folders without game files" "$scratch/line" "$scratch/expected" 0
    cp "$scratch/five.efg" "$folder/"$'d-\xff.efg'
    run hash "$folder/"
    echo "$folder/"$'d-\ufffd.efg: E20' >"$scratch/expected"
    judge "hash of a folder with a name that is not UTF-8" "$scratch/lines" "$scratch/expected" 4
    rm "$folder/"$'d-\xff.efg'
    mkdir "$folder/"$'c\xff'
    run hash "$folder"
    echo "$folder/"$'c\ufffd: E20' >"$scratch/expected"
    judge "hash of a folder with a folder whose name is not UTF-8" "$scratch/lines" "$scratch/expected" 4
    rmdir "$folder/"$'c\xff'
    ln -s nowhere "$folder/e.efg"
    run hash "$folder"
    echo "$folder/e.efg: E20" >"$scratch/expected"
    judge "hash of a folder with a link to nothing" "$scratch/lines" "$scratch/expected" 4
    rm "$folder/e.efg"
    check_unreadable "$folder"
    check_vanishing "$folder"
}

# A file and a folder that may not be read, in a folder that has the hashes in 'lines'.
check_unreadable() { # FOLDER
    chmod -R a+rX "$scratch"
    cp "$scratch/five.efg" "$1/closed.efg"
    mkdir "$1/closed"
    chmod a= "$1/closed.efg" "$1/closed"
    run_as_nobody hash "$1"
    printf '%s: E20\n%s: E20\n' "$1/closed" "$1/closed.efg" >"$scratch/expected"
    judge "hash of a folder with what cannot be read" "$scratch/lines" "$scratch/expected" 4
    chmod 755 "$1/closed"
    rm -r "$1/closed" "$1/closed.efg"
}

# A file that goes while those before it are read: the first one is a pipe, which is opened once all
# names are known. A pipe in the folder itself is passed over.
check_vanishing() { # FOLDER
    local reader pipe=$scratch/pipe
    mkfifo "$pipe" "$1/A.efg"
    cp "$scratch/five.efg" "$1/z.efg"
    { hash_of "$scratch/five.efg" "$pipe" && cat "$scratch/lines"; } >"$scratch/more"
    timeout 60 "$program" hash "$pipe" "$1" >"$scratch/out" 2>"$scratch/err" &
    reader=$!
    {
        rm "$1/z.efg"
        cat "$scratch/five.efg"
    } >"$pipe" &
    status=0
    wait "$reader" || status=$?
    kill $! 2>/dev/null
    wait
    echo "$1/z.efg: E20" >"$scratch/expected"
    judge "hash of a folder with a file that goes" "$scratch/more" "$scratch/expected" 4
    rm "$pipe" "$1/A.efg"
}

# Files that a list names: in lines, ended by zero bytes, and of standard input.
check_hash_list() {
    local list=$scratch/list five=$scratch/five.efg odd=$scratch/$'a\nb.efg' games=$scratch/games
    cp "$five" "$odd"
    run hash "$five" "$games" "$scratch/table.nfg"
    cp "$scratch/out" "$scratch/lines"
    printf '%s\n' "$five" "$games" "$scratch/table.nfg" >"$list"
    run hash --files-from "$list" <"$nothing"
    judge "hash of a list" "$scratch/lines" "$nothing" 0
    head -c -1 "$list" >"$scratch/cut"
    run hash --files-from - <"$scratch/cut"
    judge "hash of a list without its last line feed" "$scratch/lines" "$nothing" 0
    tr '\n' '\0' <"$list" >"$scratch/null"
    run hash --files-from="$scratch/null" -0
    judge "hash of a list with zero bytes" "$scratch/lines" "$nothing" 0
    sed $'s/$/\r/' "$list" >"$scratch/windows"
    run hash --files-from "$scratch/windows"
    judge "hash of a list whose lines end with CR LF" "$scratch/lines" "$nothing" 0
    run hash -0 --files-from - < <(find "$scratch" -name "a*b.efg" -print0)
    printf '\\%s  %s\n' "$(launch canon <"$five" | sha256sum | cut -d ' ' -f 1)" "${odd//$'\n'/\\n}" >"$scratch/lines"
    judge "hash of a name with a line feed" "$scratch/lines" "$nothing" 0
    run hash --files-from "$nothing" <"$accepted.nfg"
    judge "hash of an empty list" "$nothing" "$nothing" 0
    run hash --files-from - < <(printf '%s\n\n%s\n' "$scratch/missing.efg" $'d-\xff.efg')
    printf '%s: E20\nd-\ufffd.efg: E20\n' "$scratch/missing.efg" >"$scratch/expected"
    judge "hash of a list of what cannot be opened" "$nothing" "$scratch/expected" 4
    run hash --files-from "$scratch/missing"
    judge_refusal "hash of a missing list" "$scratch/missing: E20" 4
    run hash --files-from "$games"
    judge_refusal "hash of a list that is a folder" "$games: E20" 4
    run hash --explain --files-from "$scratch/missing"
    judge_refusal "hash --explain of a missing list" \
        "$scratch/missing: E20: cannot open $scratch/missing: No such file or directory (os error 2)" 4
    run hash --explain --files-from "$games"
    judge_refusal "hash --explain of a list that is a folder" \
        "$games: E20: cannot read $games: Is a directory (os error 21)
  hint: \`check\`, \`hash\`, \`duplicates\`, \`canon --check\` and \`canon --write\` read folders" 4
    run duplicates --files-from - < <(printf '%s\n' "$five" "$scratch/copy.efg")
    judge_lines "duplicates of a list" 1 "$five" "$scratch/copy.efg"
}

# Names that `sha256sum` escapes, which it reads back; with --zero they stand as they are.
check_hash_names() {
    local names=($'line\nfeed' $'carriage\rreturn' 'back\slash' plain) name
    mkdir "$scratch/names" && pushd "$scratch/names" >/dev/null || return
    for name in "${names[@]}"; do
        launch canon <"$scratch/five.efg" >"$name"
    done
    sha256sum "${names[@]}" >"$scratch/lines"
    run hash "${names[@]}"
    judge "hash of names that are escaped" "$scratch/lines" "$nothing" 0
    sha256sum --quiet --check "$scratch/out" >"$scratch/told" 2>&1
    status=$?
    : >"$scratch/out"
    judge "hashes that sha256sum checks" "$scratch/told" "$nothing" 0
    sha256sum --zero "${names[@]}" >"$scratch/lines"
    run hash -z "${names[@]}"
    judge "hash --zero" "$scratch/lines" "$nothing" 0
    sha256sum "${names[@]}" | sed -E 's/^(\\?)[0-9a-f]{64}  /\1/' >"$scratch/lines"
    run duplicates "${names[@]}"
    judge "duplicates of names that are escaped" "$scratch/lines" "$nothing" 1
    printf '%s\0' "${names[@]}" >"$scratch/lines"
    run duplicates --zero "${names[@]}"
    judge "duplicates --zero" "$scratch/lines" "$nothing" 1
    cp "$accepted.nfg" other
    run duplicates --zero other plain other plain
    printf 'other\0other\0\0plain\0plain\0' >"$scratch/lines"
    judge "duplicates --zero: two groups" "$scratch/lines" "$nothing" 1
    popd >/dev/null || return
    rm -r "$scratch/names"
}

# `check` of several files and of folders, each with a line after its name.
check_several() {
    local five=$scratch/five.efg table=$scratch/table.nfg refused=$scratch/refused.nfg
    run check "$five" "$refused" "$table"
    printf '%s: tree\n%s: table\n' "$five" "$table" >"$scratch/lines"
    echo "$refused: E4 at 26..29" >"$scratch/expected"
    judge "check of three files" "$scratch/lines" "$scratch/expected" 2
    run check "$scratch/missing" "$refused" "$five"
    echo "$five: tree" >"$scratch/lines"
    printf '%s: E20\n%s: E4 at 26..29\n' "$scratch/missing" "$refused" >"$scratch/expected"
    judge "check of a missing file among several" "$scratch/lines" "$scratch/expected" 4
    run check - "$table" <"$five"
    printf -- '-: tree\n%s: table\n' "$table" >"$scratch/lines"
    judge "check of standard input and a file" "$scratch/lines" "$nothing" 0
    mkdir "$scratch/one" && cp "$five" "$scratch/one/a.efg"
    run check "$scratch/one"
    echo "$scratch/one/a.efg: tree" >"$scratch/lines"
    judge "check of a folder" "$scratch/lines" "$nothing" 0
    cp "$five" "$scratch/one/"$'b.efg: table\nc\e[31m\u202e.efg'
    run check "$scratch/one"
    echo "$scratch/one/b.efg: table?c?[31m?.efg: tree" >>"$scratch/lines"
    judge "check of a name that a terminal obeys" "$scratch/lines" "$nothing" 0
    launch check "$five" "$table" >/dev/full 2>"$scratch/err"
    : >"$scratch/out"
    judge_refusal "check of several: standard output full" "E21" 4
    rm -r "$scratch/one"
}

# `--explain` of several files: what is said of one, and what says nothing of its file after its name.
check_several_explained() {
    local refused=$scratch/refused.nfg missing=$scratch/missing five=$scratch/five.efg command
    for command in check hash duplicates; do
        run check --explain "$refused"
        cp "$scratch/err" "$scratch/expected"
        echo "$missing: E20: cannot open $missing: No such file or directory (os error 2)" >>"$scratch/expected"
        run "$command" --explain "$refused" "$missing"
        judge "$command --explain of two files" "$nothing" "$scratch/expected" 4
    done
    for command in hash duplicates; do
        launch "$command" --explain "$five" "$scratch/copy.efg" >/dev/full 2>"$scratch/err"
        : >"$scratch/out"
        judge_refusal "$command --explain: standard output full" \
            "E21: cannot write the output: No space left on device (os error 28)" 4
    done
}

# `-` is standard input, and `./-` a file.
check_dash() {
    local command
    pushd "$scratch" >/dev/null || return
    cp table.nfg ./-
    for command in canon check table; do
        run "$command" <five.efg
        cp out lines
        run "$command" - <five.efg
        judge "$command -" lines "$nothing" 0
        run "$command" table.nfg
        cp out lines
        run "$command" ./- <five.efg
        judge "$command ./-" lines "$nothing" 0
    done
    run same - table.nfg <./-
    echo same >lines
    judge "same - B" lines "$nothing" 0
    run same table.nfg - <five.efg
    echo different >lines
    judge "same A -" lines "$nothing" 1
    run hash ./- - <five.efg
    { hash_of table.nfg ./- && hash_of five.efg -; } >lines
    judge "hash of standard input and a file of its name" lines "$nothing" 0
    rm ./-
    popd >/dev/null || return
}

# Runs the program with standard error at a terminal, and standard output there or in a pipe. The first
# file is a pipe, which gets the text of another file, but late.
run_at_terminal() { # OUTPUT TEXT-FILE WORD..
    mkfifo "$scratch/late.efg"
    python3 - "$scratch" "$1" "$2" "$program" "${@:3}" <<'END'
import os, pty, signal, subprocess, sys, time
signal.alarm(60)
scratch, to, text, *words = sys.argv[1:]
ours, theirs = pty.openpty()
output = theirs if to == "there" else subprocess.PIPE
child = subprocess.Popen(words, stdin=subprocess.DEVNULL, stdout=output, stderr=theirs)
os.close(theirs)
with open(scratch + "/late.efg", "wb") as late:
    time.sleep(0.3)
    late.write(open(text, "rb").read())
output = child.stdout.read() if child.stdout else b""
told = b""
try:
    while more := os.read(ours, 4096):
        told += more
except OSError:
    pass
open(scratch + "/out", "wb").write(output)
open(scratch + "/err", "wb").write(told.replace(b"\r\n", b"\n"))
sys.exit(child.wait())
END
    status=$?
    rm "$scratch/late.efg"
}

# Drops the counts after the first, which are shown too if the other files take long, but each only once.
drop_later_counts() { # FILES
    local count
    for ((count = 2; count <= $1; count++)); do
        sed -i -z $'s/\r\e\\[K'"$count of $1 files//" "$scratch/err"
    done
}

# A terminal is told how many files are done, and keeps the lines of faults alone.
check_progress() {
    local files=("$scratch/late.efg" "$scratch/refused.nfg" "$scratch/five.efg") erase=$'\r\e[K'
    {
        hash_of "$scratch/five.efg" "$scratch/late.efg"
        hash_of "$scratch/five.efg" "$scratch/five.efg"
    } >"$scratch/lines"
    run_at_terminal piped "$scratch/five.efg" hash "${files[@]}"
    drop_later_counts 3
    printf '%s1 of 3 files%s%s: E4 at 26..29\n%s' "$erase" "$erase" "$scratch/refused.nfg" "$erase" >"$scratch/expected"
    judge "progress at a terminal" "$scratch/lines" "$scratch/expected" 2
    run_at_terminal piped "$scratch/five.efg" hash --quiet "${files[@]}"
    echo "$scratch/refused.nfg: E4 at 26..29" >"$scratch/expected"
    judge "progress with --quiet" "$scratch/lines" "$scratch/expected" 2
    run_at_terminal there "$scratch/five.efg" hash "${files[0]}" "${files[2]}"
    drop_later_counts 2
    {
        printf '%s' "$erase" && head -n 1 "$scratch/lines"
        printf '%s1 of 2 files%s' "$erase" "$erase" && tail -n 1 "$scratch/lines" && printf '%s' "$erase"
    } >"$scratch/expected"
    judge "progress at a terminal that has the output" "$nothing" "$scratch/expected" 0
    run_at_terminal piped "$scratch/five.efg" duplicates "${files[@]}"
    drop_later_counts 3
    printf '%s\n' "$scratch/late.efg" "$scratch/five.efg" >"$scratch/lines"
    printf '%s1 of 3 files%s%s: E4 at 26..29\n%s' "$erase" "$erase" "$scratch/refused.nfg" "$erase" >"$scratch/expected"
    judge "progress of duplicates" "$scratch/lines" "$scratch/expected" 2
    run_at_terminal piped "$scratch/five.efg" duplicates --quiet "${files[@]}"
    echo "$scratch/refused.nfg: E4 at 26..29" >"$scratch/expected"
    judge "progress of duplicates with --quiet" "$scratch/lines" "$scratch/expected" 2
    check_progress_of_folder
}

# `check` of a folder, `canon --check` and `canon --write` tell a terminal the same. The text that comes late
# is canonical: a pipe cannot be replaced.
check_progress_of_folder() {
    local folder=$scratch/shown erase=$'\r\e[K' command quiet
    mkdir "$folder"
    launch canon <"$scratch/five.efg" >"$scratch/text.efg"
    for command in check "canon --check" "canon --write"; do
        for quiet in "" --quiet; do
            cp "$scratch/five.efg" "$scratch/refused.nfg" "$folder"
            case $command in
            check) printf '%s: tree\n' "$scratch/late.efg" "$folder/five.efg" ;;
            *--check) echo "$folder/five.efg" ;;
            esac >"$scratch/lines"
            {
                [[ $quiet ]] || printf '%s1 of 3 files%s' "$erase" "$erase"
                echo "$folder/refused.nfg: E4 at 26..29"
                [[ $quiet ]] || printf '%s' "$erase"
            } >"$scratch/expected"
            # (no option is no word)
            # shellcheck disable=SC2086
            run_at_terminal piped "$scratch/text.efg" $command $quiet "$scratch/late.efg" "$folder"
            [[ $quiet ]] || drop_later_counts 3
            judge "progress of $command ${quiet:-without --quiet}" "$scratch/lines" "$scratch/expected" 2
        done
    done
    rm -r "$folder" "$scratch/text.efg"
}

# What is erased takes no byte from a line beside it, however long the line is.
check_lines_at_terminal() {
    local names=(late.efg) name length hash
    for length in {1..80}; do
        printf -v name '%*s' "$length" ''
        names+=("${name// /n}")
        cp "$scratch/five.efg" "$scratch/${names[-1]}"
    done
    pushd "$scratch" >/dev/null || return
    run_at_terminal there "$scratch/five.efg" hash "${names[@]}"
    popd >/dev/null || return
    hash=$(hash_of "$scratch/five.efg" "")
    for name in "${names[@]}"; do
        printf '%s%s\n' "$hash" "$name"
    done >"$scratch/lines"
    sed -E $'s/\r\e\\[K([0-9]+ of [0-9]+ files)?//g' "$scratch/err" >"$scratch/told"
    mv "$scratch/told" "$scratch/err"
    judge "lines of each length at a terminal" "$nothing" "$scratch/lines" 0
}

# Groups of two or more files, in order of their first files, whatever else is refused or missing.
check_duplicates() {
    local folder=$scratch/-games names
    mkdir "$folder"
    run duplicates -- "$folder"
    echo "$folder: no game files" >"$scratch/expected"
    judge "duplicates: an empty folder" "$nothing" "$scratch/expected" 0
    run duplicates <"$accepted.nfg"
    judge "duplicates: standard input" "$nothing" "$nothing" 0
    cp "$scratch/five.efg" "$scratch/prize.efg" "$folder"
    cp "$accepted.nfg" "$folder/selten.NFG"
    run duplicates -- "$folder"
    judge "duplicates: other games" "$nothing" "$nothing" 0
    ln -s five.efg "$folder/a-link.efg"
    ln "$folder/five.efg" "$folder/another-name.efg"
    run duplicates -- "$folder" "$folder/"
    judge "duplicates: a file by other names" "$nothing" "$nothing" 0
    run duplicates -- "$folder/five.efg" "$folder/a-link.efg"
    judge_lines "duplicates: a file by names that are given" 1 "$folder/five.efg" "$folder/a-link.efg"
    rm "$folder/a-link.efg" "$folder/another-name.efg"
    cp "$scratch/copy.efg" "$folder"
    cp "$accepted.out" "$folder/a b.nfg"
    names=("$folder/a b.nfg" "$folder/selten.NFG" "" "$folder/copy.efg" "$folder/five.efg")
    run duplicates -- "$folder"
    judge_lines "duplicates: two games twice" 1 "${names[@]}"
    run duplicates "$scratch/five.efg" "$accepted.nfg" "$scratch/copy.efg" "$scratch/five.efg"
    judge_lines "duplicates: a file twice" 1 "$scratch/five.efg" "$scratch/copy.efg" "$scratch/five.efg"
    run duplicates "$scratch/prize.efg" "$scratch/names.efg"
    judge "duplicates: other names" "$nothing" "$nothing" 0
    run duplicates --no-names "$scratch/prize.efg" "$scratch/names.efg"
    judge_lines "duplicates --no-names" 1 "$scratch/prize.efg" "$scratch/names.efg"
    cp "$scratch/refused.nfg" "$folder"
    run duplicates -- "$folder"
    printf '%s\n' "${names[@]}" >"$scratch/lines"
    echo "$folder/refused.nfg: E4 at 26..29" >"$scratch/expected"
    judge "duplicates: a refused file" "$scratch/lines" "$scratch/expected" 2
    run duplicates "$scratch/missing.efg" -- "$folder"
    printf '%s: E20\n%s: E4 at 26..29\n' "$scratch/missing.efg" "$folder/refused.nfg" >"$scratch/expected"
    judge "duplicates: a missing file" "$scratch/lines" "$scratch/expected" 4
    launch duplicates -- "$folder" >/dev/full 2>"$scratch/err"
    : >"$scratch/out"
    printf '%s: E4 at 26..29\nE21\n' "$folder/refused.nfg" >"$scratch/expected"
    judge "duplicates: standard output full" "$nothing" "$scratch/expected" 4
}

# Many small files take at most twice the processor time that `sha256sum` of them takes, each at its best
# of three.
check_many() {
    local ratio
    ratio=$(python3 - "$scratch/many" "$program" <<'END'
import os, resource, subprocess, sys
folder, program = sys.argv[1:]
count = 20000
for number in range(count):
    if number % 1000 == 0:
        os.makedirs(f"{folder}/{number // 1000:02}")
    with open(f"{folder}/{number // 1000:02}/{number}.efg", "w") as game:
        game.write(f'EFG 2 R "{number}" {{ "A" }}\nt "" 1 "" {{ {number} }}\n')
def best(command):
    spent = []
    for _ in range(3):
        before = resource.getrusage(resource.RUSAGE_CHILDREN)
        ran = subprocess.run(["bash", "-c", command], stdout=subprocess.PIPE, check=True)
        after = resource.getrusage(resource.RUSAGE_CHILDREN)
        assert ran.stdout.count(b"\n") == count
        spent.append(after.ru_utime + after.ru_stime - before.ru_utime - before.ru_stime)
    return min(spent)
ours = best(f"'{program}' hash '{folder}'")
print(round(ours / best(f"find '{folder}' -type f -print0 | xargs -0 sha256sum"), 2))
END
    )
    rm -r "$scratch/many"
    if [[ -n $ratio ]] && awk "BEGIN { exit !($ratio <= 2) }"; then
        passed=$((passed + 1))
    else
        fail "hash of many files: it took ${ratio:-?} times as long as sha256sum"
    fi
}

# GNU parallel gives files to several processes, and to two machines, which are this one by two names. If
# there is none, both are not run; if there is no server for ssh, the second is not.
check_parallel() {
    if ! command -v parallel >/dev/null; then
        echo "NOT RUN hash by parallel: there is no parallel"
        echo "NOT RUN hash by parallel on two machines: there is no parallel"
        return
    fi
    run hash "$root/examples"
    sort "$scratch/out" >"$scratch/lines"
    echo "$root/examples/refused/three-doors.efg: E13 at 94..95" >"$scratch/expected"
    hash_by_parallel "hash by parallel"
    if [[ ! -x /usr/sbin/sshd ]]; then
        echo "NOT RUN hash by parallel on two machines: there is no sshd"
        return
    fi
    start_server
    PARALLEL_SSH="ssh -F $scratch/ssh/config" hash_by_parallel "hash by parallel on two machines" -S one,two
    kill "$(cat "$scratch/ssh/pid")"
}

# Compares what parallel writes of the examples with 'lines' and 'expected'.
hash_by_parallel() { # NAME OPTION..
    find "$root/examples" -name '*.[en]fg' -print0 |
        timeout 60 parallel -0 -n 4 "${@:2}" "$program" hash 2>"$scratch/err" | sort >"$scratch/out"
    status=${PIPESTATUS[1]}
    judge "$1" "$scratch/lines" "$scratch/expected" 1
}

# A server for ssh at 127.0.0.1, which is called one and two.
start_server() {
    local ssh=$scratch/ssh port
    port=$(python3 -c 'import socket; s = socket.socket(); s.bind(("127.0.0.1", 0)); print(s.getsockname()[1])')
    mkdir -p "$ssh" /run/sshd
    ssh-keygen -q -t ed25519 -N '' -f "$ssh/host"
    ssh-keygen -q -t ed25519 -N '' -f "$ssh/user"
    cat >"$ssh/server" <<END
Port $port
ListenAddress 127.0.0.1
HostKey $ssh/host
AuthorizedKeysFile $ssh/user.pub
StrictModes no
UsePAM no
PidFile $ssh/pid
END
    cat >"$ssh/config" <<END
Host one two
    HostName 127.0.0.1
    Port $port
    IdentityFile $ssh/user
    StrictHostKeyChecking no
    UserKnownHostsFile /dev/null
    LogLevel ERROR
END
    /usr/sbin/sshd -f "$ssh/server" -E "$ssh/log"
    # It goes to the background before it listens, and writes this file when it does.
    timeout 60 bash -c 'until [[ -s $1 ]]; do sleep 0.1; done' bash "$ssh/pid"
}
