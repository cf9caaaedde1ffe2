# Sourced by the scripts that prove and build: what they are doing and how far they are, on the terminal only. What a command
# prints goes to a log, which is shown when the command fails.

# the repository, where each script is when it reads this
root=$PWD

# Stops at once if a tool is missing: needs TOOL..
needs() {
    local tool
    for tool; do
        command -v "$tool" >/dev/null || { echo "this needs $tool, which is not here"; exit 1; }
    done
}

# A line on the terminal.
tell() {
    [ ! -t 2 ] || printf '%s\n' "$*" >&2
}

# Runs a command quietly: quietly LOG COMMAND..
quietly() {
    local log=$1
    shift
    "$@" >"$log" 2>&1 || { cat "$log"; echo "failed: $*"; exit 1; }
}

# The crates that those named use, and they themselves, the lowest first; all that are listed if none is named
crates_for() {
    WANTED="$*" awk '
        function visit(name, part, used, k) {
            if (name in seen || !(name in uses)) return
            seen[name] = 1
            used = split(uses[name], part, " ")
            for (k = 1; k <= used; k++) visit(part[k])
            print name
        }
        { sub(/#.*/, "") }
        split($0, line, ":") == 2 { split(line[1], word, " "); uses[word[1]] = line[2] }
        END {
            wanted = split(ENVIRON["WANTED"], want, " ")
            for (k = 1; k <= wanted; k++) visit(want[k])
            if (!wanted) for (name in uses) visit(name)
        }' crates.txt
}

# Counts, on the terminal, the lines of an rt command that match, and shows what the last one names: counting WHAT TOTAL PATTERN
counting() {
    local what=$1 total=$2 pattern=$3 done=0 last= line
    while
        [ ! -t 2 ] || printf '\r%s: %d of %d %-40s' "$what" "$done" "$total" "$last" >&2
        IFS= read -r line
    do
        if [[ $line =~ $pattern ]]; then
            done=$((done + 1))
            last=${BASH_REMATCH[1]}
        fi
    done
    [ ! -t 2 ] || printf '\n' >&2
}

# Proves and builds the library named and those that it uses, as many at a time as there are processors: prove LOG LIBRARY..
prove() {
    local log=$1 crates
    shift
    mapfile -t crates < <(crates_for "$@")
    [ ${#crates[@]} -ge $# ] && [ $# -gt 0 ] || { echo "crates.txt does not list: $*"; exit 1; }
    : >"$log"
    # shellcheck disable=SC2016
    printf '%s\n' "${crates[@]}" | xargs -P "$(nproc)" -I{} bash -c '
        said=$(cd "crates/$1" && rt lib 2>&1) && echo "proved $1" || { printf "%s\n" "$said" >>"$2"; exit 1; }' - {} "$log" |
        counting "crates proved" "${#crates[@]}" '^proved ([a-z_]+)' || { cat "$log"; echo "failed: rt lib"; exit 1; }
}

# Builds the library for C and Rust: build_library LOG
build_library() {
    prove "$1" sps
    mkdir -p target/staticlib
    cp crates/sps/out/libsps.a target/staticlib/libsps.a
}

# Builds a program: build_program LOG NAME
build_program() {
    local log
    log=$(realpath -m "$1")
    # shellcheck disable=SC2046
    prove "$1" $(sed -n "s/^$2: //p" crates.txt)
    tell "proving the program $2"
    (cd "crates/$2" && quietly "$log" rt run </dev/null)
    mkdir -p target/bin
    cp "crates/$2/out/$2" "target/bin/$2"
}

# Says where the library is, whatever the folder is by now: tell_library ARCHIVE
tell_library() {
    tell "archive: $(cd "$root" && realpath "$1"); header: $root/host/include/sps.h; example: $root/host/example/count_sessions.c"
}

# Passes lines on, and counts on the terminal those that match: passing WHAT TOTAL PATTERN
passing() {
    local what=$1 total=$2 pattern=$3 done=0 line
    while IFS= read -r line; do
        printf '%s\n' "$line"
        [[ $line =~ $pattern ]] || continue
        done=$((done + 1))
        tell "$what $done of $total"
    done
}
