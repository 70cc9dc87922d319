# What the scripts of checks/ share. A script that sources this has set `top`; `program` is the built program.
. "$top/script/ports.bash"
program=${PROGRAM:-$top/crates/tl_cli/out/tl_cli}

fail() { printf '%s: %s\n' "checks/${0##*/}" "$1" >&2; exit 1; }
passed() { printf 'ok: %s\n' "$1"; }

# Fails if the program is not built.
want_program() { [ -x "$program" ] || fail 'build the program first: ./build'; }

# Reads the commands of a numbered step of a section of a page into `commands`: PAGE SECTION NUMBER.
read_step() {
    mapfile -t commands < <(sed -n "/^##* $2/,/^##* /p" "$1" | awk -v at="$3. " -v then="$(($3 + 1)). " '
        index($0, then) == 1 { exit }
        index($0, at) == 1 { inside = 1 }
        inside && /^       / { print substr($0, 8) }')
    [ "${#commands[@]}" -gt 0 ] || fail "$2: the page has no step $3"
}

# The status that belongs to a line.
status_of() {
    local rest=${1#error }
    case $1 in
    'error '*) echo "${rest%% *}" ;;
    'not accepted'*) echo 1 ;;
    *) echo 0 ;;
    esac
}

# Runs a command of the program: its line goes into `said`, and its status has to be the one for that line.
run_command() {
    local status=0
    said=$("$program" "$@") || status=$?
    [ "$status" = "$(status_of "$said")" ] || fail "status $status with the line '$said': $*"
}

# Runs a command, which has to print this line and end with the status for it.
says() {
    run_command "${@:2}"
    [ "$said" = "$1" ] || fail "'$said' in place of '$1': ${*:2}"
}

# Runs a command, whose line has to begin like this.
begins() {
    run_command "${@:2}"
    [ "${said#"$1"}" != "$said" ] || fail "'$said' in place of '$1..': ${*:2}"
}
