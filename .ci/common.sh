# shellcheck shell=sh
# What ./takes and ./check share; the current folder is the repository's.

name=$(basename "$0")

# Leaves with one sentence where the toolchain is missing.
need_rt() {
    if ! command -v rt >/dev/null 2>&1; then
        echo "$name: the Rattle toolchain (the command rt) is not on the PATH, and nothing is built without it" >&2
        exit 2
    fi
}

# Leaves with one sentence where target/ cannot be written. It is tried, for a mode does not tell of a file system that is read-only.
need_target() {
    if ! { mkdir -p target && touch target/.tried && rm target/.tried; } 2>/dev/null; then
        echo "$name: $(pwd)/target cannot be written, and what is said and built goes there and below crates; use a copy of the repository of your own" >&2
        exit 2
    fi
}

# Shows what rt says of crates, edits and runs, as it comes. What the prover says is left out where rt's next line is good and shown where it
# is not, and all of it goes to the file. The count at the end is left to the caller. No awk here: some wait for a full buffer.
brief() { # FILE
    end_of_line='
'
    held='' wrong=''
    : >"$1"
    while IFS= read -r line || [ -n "$line" ]; do
        printf '%s\n' "$line" >>"$1"
        case $line in
        'rt: '*': refused, as it must be'*)
            held='' wrong=''
            printf '%s\n' "$line"
            ;;
        *'NOT PROVED'* | *'NOT REFUSED'* | *'NOT TRIED'* | *'BAD EDIT'* | *FAILED* | 'rt: '*error*)
            printf '%s%s\n' "$held" "$line"
            held='' wrong=yes
            ;;
        'rt: '*)
            held='' wrong=''
            printf '%s\n' "$line"
            ;;
        [0-9]*' passed, '[0-9]*' failed'*) ;;
        *) if [ -n "$wrong" ]; then printf '%s\n' "$line"; else held=$held$line$end_of_line; fi ;;
        esac
    done
    printf '%s' "$held"
}

# Runs rt with the words given, here or in the folder $within, shown in brief and kept whole in the file. A pipe's status is its last command's, so that of rt goes through a file
# beside it; it is left in $status.
run_rt() { # FILE WORDS..
    said=$1
    shift
    {
        status=0
        (cd "${within-.}" && rt "$@") 2>&1 || status=$?
        echo "$status" >"$said.status"
    } | brief "$said"
    status=$(cat "$said.status")
    rm -f "$said.status"
}
