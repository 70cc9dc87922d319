# Whether what is built is newer than what it is made from. A script that sources this has set `top`.

# The folders and files that a crate is made from.
made_from() {
    awk -v top="$top" -v crate="$1" '
        { sub(/#.*/, "") }
        /:/ { name = $1; sub(/:$/, "", name); sub(/^[^:]*:/, ""); below[name] = $0 }
        function visit(name,    list, count, i) {
            if (name in seen || !(name in below)) return
            seen[name] = 1
            count = split(below[name], list)
            for (i = 1; i <= count; i++) visit(list[i])
            print top "/crates/" name "/src"
            print top "/crates/" name "/specs"
        }
        END { visit(crate); print top "/crates.txt" }
    ' "$top/crates.txt"
}

# Whether a crate's program or library is not there, or something that it is made from is newer. A folder is newer if a
# file was removed from it.
is_stale() {
    local from
    [ -e "$2" ] || return 0
    mapfile -t from < <(made_from "$1")
    [ -n "$(find "${from[@]}" -newer "$2" -print -quit 2>/dev/null)" ]
}

# Builds the program whose calls are measured, unless the one that is there, which the gate leaves too, is fresh.
build_calls() {
    is_stale bench_calls "$top/crates/bench_calls/out/bench_calls" || return 0
    echo 'bench_calls is proved and built first: some minutes, or as long as ./build if that was not run before' >&2
    (cd "$top/crates/bench_calls" && rt run -- all >/dev/null 2>&1) || { echo 'bench_calls does not build' >&2; exit 1; }
}
