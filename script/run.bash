# What the script of a checkout and the installed launcher share: what words they answer without the program, how it is
# run, and what standard error says afterwards. A script that sources this has set `program`, and `share`, the folder
# with the two text files. `own` lists the commands that the script itself has. On standard output stand help and, for
# words that are not a command, `error 2 usage`.

# Prints each command with what it does.
list_commands() {
    awk -v own=" $own " '
        /^#/ { next }
        /^[^ ]/ {
            what = $0 !~ /^(help|install|release|package|--version)/ || index(own, " " $1 " ")
            if (what) print "rikselbe " $0
            next
        }
        what && /^  / { print "  " $0; what = 0 }
    ' "$share/commands.txt"
    printf '\nrikselbe help COMMAND says more about one.\n'
}

# Prints what one command does, its words and an example; status 1 if there is no such command.
explain_command() {
    awk -v name="$*" -v own=" $own " '
        /^#/ { next }
        /^[^ ]/ {
            inside = index($0 " ", name " ") == 1 && ($0 !~ /^(help|install|release|package|--version)/ || index(own, " " $1 " "))
            if (inside) { if (found++) print ""; print "rikselbe " $0; what = 1 }
            next
        }
        !inside || NF == 0 { next }
        what { print "    " substr($0, 3) "\n"; what = 0; next }
        /^  \$ / { print "\n    Example: " substr($0, 5); next }
        {
            mark = substr($2, 1, 1); text = $0; sub(/^ +[^ ]+ +[^ ]+ +/, "", text)
            printf "    %-18s %s%s\n", $1, text, mark ~ /[=+]/ ? " (changed in place)" : ""
        }
        END { exit !found }
    ' "$share/commands.txt"
}

# Whether a word is the first of a command that is available.
is_command() {
    local line
    [[ " install release package " != *" $1 "* || " $own " == *" $1 "* ]] || return
    while IFS= read -r line; do
        [[ $line != [#\ ]* && $line == "$1 "* ]] && return
    done <"$share/commands.txt"
    return 1
}

# Prints how many open files a command needs that serves, if its words say: the standard streams, its file, a book and
# the socket that listens, and what each worker has at once. With a trustee that is one connection; with an aggregator it
# is a client, the reference, and one connection to each of K trustees. This script itself needs ten.
files_needed() {
    local members=0 need
    [[ ${5-} =~ ^[0-9]{1,2}$ ]] || return
    case $1 in
    trustee) need=$((5 + ($# > 6) + 10#$5)) ;;
    aggregate)
        members=$(od -An -tu1 -j6 -N1 -- "$2.ref" 2>/dev/null) || return
        need=$((5 + 10#$5 * (2 + members))) ;;
    *) return ;;
    esac
    echo $((need > 10 ? need : 10))
}

# Raises the limit on open files to what a command needs that serves. If it is not to be had, the command ends: workers
# would wait for what others hold.
want_files() {
    local need limit
    need=$(files_needed "$@")
    limit=$(ulimit -Sn)
    [ -n "$need" ] && [ "$limit" != unlimited ] && [ "$limit" -lt "$need" ] || return 0
    ulimit -Sn "$need" 2>/dev/null && return
    say "this needs $need open files, and the limit is $(ulimit -Hn): raise it, or name fewer workers"
    printf 'error 17 network\n'
    exit 17
}

# Answers a call for help, and words that are not a command, before anything is built or run.
words_first() {
    case ${1-} in
    help | --help | -h)
        shift
        [ $# != 0 ] || { list_commands; exit 0; }
        [ -n "$*" ] && explain_command "$@" && exit 0
        printf 'rikselbe: %s is not a command\n\n' "$*" >&2 ;;
    --version) return ;;
    '') ;;
    *)
        is_command "$1" && { want_files "$@"; return; }
        printf 'rikselbe: %s is not a command\n\n' "$1" >&2 ;;
    esac
    list_commands >&2
    printf 'error 2 usage\n'
    exit 2
}

# Prints a line on standard error.
say() { printf 'rikselbe: %s\n' "$1" >&2; }

# Calls a function with mark and file for each file that the words of a command name; `word` is what help calls it.
each_file() {
    local call=$1 line name=$2 inside='' at=2 word mark suffixes suffix
    shift 2
    [ "$name" != hss ] || { name="hss ${1-}"; shift; }
    while IFS= read -r line; do
        if [[ $line == [a-z]* ]]; then
            inside=
            [[ "$line " != "$name "* ]] || { inside=yes; at=0; }
        elif [[ $inside && $line =~ ^\ \ ([A-Za-z=:-]+)\ ([-+\<\>=])([^\ ]*)\  ]]; then
            at=$((at + 1))
            word=${BASH_REMATCH[1]} mark=${BASH_REMATCH[2]} suffixes=${BASH_REMATCH[3]}
            [ "$mark" != - ] && [ $at -le $# ] || continue
            if [ -z "$suffixes" ]; then
                "$call" "$mark" "${!at}"
            else
                for suffix in ${suffixes//,/ }; do "$call" "$mark" "${!at}$suffix"; done
            fi
        fi
    done <"$share/commands.txt"
}

# Says why a file may not have been read, made or locked. A name with a star stands for each that is there.
say_of_file() {
    local mark=$1 name=$2 folder left
    folder=$(dirname -- "$name")
    if [ "$mark" = '<' ]; then
        if [ -d "$name" ]; then say "$name is a folder"
        elif [ ! -e "$name" ]; then say "$name is not there"
        elif [ ! -r "$name" ]; then say "$name cannot be read by the user $(id -un)"
        fi
        return
    fi
    if [ ! -d "$folder" ]; then say "the folder $folder is not there"
    elif [ ! -w "$folder" ] || [ ! -r "$folder" ] && { [ "$mark" = '>' ] || [ ! -e "$name" ]; }; then
        say "the user $(id -un) cannot read and write the folder $folder, where $name is made"
    fi
    if [ "$mark" = '>' ]; then
        for left in "${name%\*}"*.new; do
            [[ $left == "$name.new" || $name == *\* ]] && [ -e "$left" ] &&
                say "$left was left by a program that was stopped: look at it, and remove it"
        done
        return
    fi
    if [ ! -e "$name" ]; then [ "$mark" = + ] || say "$name is not there"
    elif [ ! -f "$name" ]; then say "$name is not a regular file"
    elif [ ! -r "$name" ] || [ ! -w "$name" ]; then say "$name cannot be read and written by the user $(id -un)"
    elif grep -q "FLOCK.*:$(stat -Lc %i -- "$name") " /proc/locks 2>/dev/null; then
        say "$name is in use by another process"
    fi
}

# Says so if a file is on a file system that is full.
say_of_room() {
    local folder room
    [ "$1" != '<' ] || return
    folder=$(dirname -- "$2")
    room=$(df -P -- "$folder" 2>/dev/null | awk 'NR == 2 { print $4 }')
    [ "$room" != 0 ] || say "there is no room in the folder $folder, where $2 is"
}

# Whether anything on this machine listens at a port; if a process is given, whether that process does.
is_listening() {
    local node nodes it
    nodes=$(awk -v port=":$(printf %04X "$((10#$1))")" '$4 == "0A" && $2 ~ port "$" { print $10 }' /proc/self/net/tcp{,6} 2>/dev/null)
    for node in $nodes; do
        [ -n "${2-}" ] || return 0
        for it in "/proc/$2/fd"/*; do
            [ "$(readlink "$it" 2>/dev/null)" != "socket:[$node]" ] || return 0
        done
    done
    return 1
}

# Says why the program cannot listen at a place.
say_of_place() {
    local port=${1##*:}
    if [[ ! $port =~ ^[0-9]{1,5}$ ]]; then say "$1 has no port: it has to be HOST:PORT"
    elif is_listening "$port"; then say "something listens at port $port already"
    elif [ "$port" -lt 1024 ] && [ "$(id -u)" != 0 ]; then say "port $port is below 1024, which needs privileges"
    else say "${1%:*} may not be an address of this machine, or may be a name without an address"
    fi
}

# Says what coalition a key needs, from the head of its reference.
say_of_members() {
    local want
    want=$(od -An -tu1 -j6 -N2 -- "$1.ref" 2>/dev/null)
    # shellcheck disable=SC2086 # two numbers
    set -- $want
    [ $# != 2 ] || say "this key needs $1 different trustees of 1 to $2"
}

# Says on standard error what a status means, what was found by looking, and what to do.
say_of_status() {
    local status=$1 text
    shift
    [ "$status" != 0 ] || return
    [ "$status" != 1 ] || { say_of_signature "$@"; return; }
    [ "$status" != 2 ] || { say_of_words "$@" || explain_command "$1" >&2 || list_commands >&2; return; }
    text=$(sed -n "/of blame/!s/^$status //p" "$share/statuses.txt")
    [ "$status $1" != '8 blame' ] || text=$(sed -n 's/^8 of blame: //p' "$share/statuses.txt")
    [ -n "$text" ] || return
    say "$text"
    case $status in
    3) { each_file say_of_file "$@"; each_file say_of_room "$@"; } 2>&1 | awk '!($0 in said); { said[$0] }' >&2 ;;
    4 | 13) say_of_kinds "$@" ;;
    5) say_of_entropy "$@" ;;
    6) say_of_trustees "$@" ;;
    8) [ "$1" != sign ] || [ ! -e "$2.commit" ] || say "rikselbe blame with the same words says who it was" ;;
    10) each_file say_of_room "$@" 2>&1 | awk '!($0 in said); { said[$0] }' >&2 ;;
    14) [ "$1" != enrol ] || [ ! -e "${3-}" ] || say_of_slots "$3" ;;
    15) if [ "$1" = enrol ] || [ "$1" = migrate ]; then say_of_slots "${!#}"; else each_file say_of_output "$@"; fi ;;
    17) say_of_place "${4-}" ;;
    18) if [ "$1" = hss ]; then say_of_members "${3-}"; else say_of_members "${2-}"; fi ;;
    esac
}

# Says so if a file that is named as a signature cannot be one.
say_of_signature() {
    local name=$4 what=signature
    [ "$1" != hss ] || name=$5 what='HSS signature'
    is_signature "$name" "$1" ||
        say "$name is no $what: were the words given in another order? They are KEY MESSAGE SIGNATURE"
}

# Whether a file may be a signature: it begins with a leaf and an LM-OTS code, or for HSS with how many levels are signed
# below the first.
is_signature() {
    local head
    head=$(od -An -v -tx1 -N12 -- "$1" 2>/dev/null | tr -d ' \n')
    if [ "${2-}" = hss ]; then [[ $head =~ ^0000000[0-7]0[01]......0000000[1-8] ]]
    else [[ $head =~ ^0[01]......0000000[1-8] ]]
    fi
}

# Says which of the words of a command is wrong, and why; status 1 if that is not one word.
say_of_words() {
    local name=$1 line words word at=0 least most given=() seen=' '
    shift
    [ "$name" != hss ] || { name="hss ${1-}"; shift; }
    line=$(grep -m1 "^$name " "$share/commands.txt") || return
    read -ra words <<<"${line#"$name "}"
    least=0
    for word in "${words[@]}"; do [[ $word == \[* ]] || least=$((least + 1)); done
    most=${#words[@]}
    [[ ${words[most - 1]} != *.. ]] || most=99
    [ $# -ge "$least" ] && [ $# -le "$most" ] || { say "$name has $# words in place of ${line#"$name "}"; return 1; }
    for word; do
        given=("${words[at < ${#words[@]} ? at : ${#words[@]} - 1]}")
        at=$((at + 1))
        case ${given[0]} in
        WORKERS) is_number "$word" 1 64 || { say "WORKERS is $word, and has to be a number of 1 to 64"; return 0; } ;;
        CONNECTIONS | NUMBER | SESSIONS | EVENTS)
            is_number "$word" 0 4294967295 || { say "${given[0]} is $word, and has to be a number of at most 4294967295"; return 0; } ;;
        LMS | OTS | N | K) is_number "$word" 0 4294967295 || { say "${given[0]} is $word, and has to be a number"; return 0; } ;;
        MEMBER=*)
            [[ $word =~ ^0*([0-9]{1,2})=.*:.+$ ]] || { say "$word has to be MEMBER=HOST:PORT, such as 1=127.0.0.1:4711"; return 0; }
            [[ $seen != *" ${BASH_REMATCH[1]} "* ]] || { say "trustee ${BASH_REMATCH[1]} is named twice"; return 0; }
            seen+="${BASH_REMATCH[1]} " ;;
        esac
    done
    return 1
}

# Whether a word is a number in a range.
is_number() { [[ $1 =~ ^[0-9]{1,10}$ ]] && [ $((10#$1)) -ge "$2" ] && [ $((10#$1)) -le "$3" ]; }

# Says what the files are that were read or changed, by what `show` says of them: those that are not what they have to be,
# or all of them if there are none such.
say_of_kinds() {
    local command=$1 right=() wrong=() it
    each_file note_kind "$@"
    [ ${#wrong[@]} != 0 ] || wrong=("${right[@]}")
    for it in "${wrong[@]}"; do say "$it"; done
}

# Prints a name with its article.
a_or_an() { if [[ $1 == HSS* ]]; then printf 'an %s' "$1"; else printf 'a %s' "$1"; fi; }

# Notes what a file is, in `right` or `wrong`. A message may be anything.
note_kind() {
    local want line is
    [ "$1" != '>' ] && [ -f "$2" ] || return 0
    case $word in
    PREFIX) want=${2##*.}; want=${want/#pub/key} want=${want/#ref/reference} want=${want/#commit/commitments} ;;
    KEY) want=key; [ "$command" != hss ] || want='HSS key' ;;
    LOW-KEY) want=key ;;
    SIGNATURE | LOW-SIG) want=signature ;;
    SHARE | JOURNAL | TABLE | BOOK) want=${word,,} ;;
    FILE) want='share or reference'; [ "$command" = enrol ] || want='file of a key, journal, leaf table or book' ;;
    *) return 0 ;;
    esac
    if line=$("$program" show "$2" 2>/dev/null); then
        line=${line%%$'\n'*} is=${line%% *}
        is=${is/#hss/HSS key}
        if [[ " or $want or " == *" or $is or "* || $command == show ]]; then right+=("$2: $line"); return; fi
        wrong+=("$2 is $(a_or_an "$is"), and $word has to be $(a_or_an "$want"): $line")
    elif is_signature "$2" || is_signature "$2" hss; then
        [ "$want" = signature ] || wrong+=("$2 may be a signature, and $word has to be $(a_or_an "$want")")
    else
        wrong+=("$2 is no $want that can be read")
    fi
}

# Says which outputs are there, and that an earlier try that failed may have left them.
say_of_output() {
    [ "$1" = '>' ] || return 0
    local it
    for it in $2; do
        [ ! -e "$it" ] || say "$it is there, of $(date -r "$it" '+%Y-%m-%d %H:%M'). If the same command left it when it failed, remove it and try again"
    done
}

# Says what to do about a journal or table that is there. One that has answered must never be removed.
say_of_slots() {
    say "$1 is there, of $(date -r "$1" '+%Y-%m-%d %H:%M'), and \`rikselbe show\` says what it holds. If it prints its line, use it as it is: a journal is made once. If it says journal fault 1 or 2, $1 was not made whole: remove it and try again"
}

# Says how each trustee that is named can be reached, by a connection that says nothing.
say_of_trustees() {
    local word place host port said
    for word; do
        [[ $word =~ ^[0-9]+=(.+):([0-9]+)$ ]] || continue
        place=${word#*=} host=${BASH_REMATCH[1]} port=${BASH_REMATCH[2]}
        if said=$(LC_ALL=C timeout 3 bash -c 'exec 3<>"/dev/tcp/$0/$1"' "$host" "$port" 2>&1); then
            say "trustee ${word%%=*} at $place can be reached: it closed the connection, sent no reply, or is no trustee"
        elif [ $? = 124 ]; then say "trustee ${word%%=*} at $place: no answer in 3 seconds"
        elif [[ $said == *'not known'* || $said == *'name resolution'* || $said == *'nvalid host'* ]]; then
            say "trustee ${word%%=*} at $place: there is no such name"
        elif [[ $said == *refused* ]]; then say "trustee ${word%%=*} at $place: the connection is refused; nothing listens there"
        else say "trustee ${word%%=*} at $place: $(sed -n 's/.*: //p' <<<"$said" | tail -n 1)"
        fi
    done
}

# Says how long the entropy of a dealing has to be, if it has another length. A rehearsal deals to two trustees.
say_of_entropy() {
    local trustees=2 has want
    [ "$1" = rehearse ] || trustees=${5-}
    [[ $trustees =~ ^[0-9]{1,2}$ ]] && has=$(stat -Lc %s -- "$2" 2>/dev/null) || return
    want=$((80 + 32 * 10#$trustees))
    [ "$has" = "$want" ] || say "$2 has $has bytes, and a key for $trustees trustees is dealt from $want"
}

# Tells systemd that a service listens at a place, if it waits to be told: `notify` is the socket that it named.
tell_ready() {
    [ -n "$notify" ] || return 0
    NOTIFY_SOCKET=$notify systemd-notify --ready --status="listens at $1" ||
        say 'systemd was not told that the service is ready: systemd-notify failed, or is not there'
}

# Says, once, that a process listens at a place, as soon as it does, if that is within a minute. A second later, says so
# if it has fewer threads than workers. Each worker ends after so many connections: if these are few, it may have ended.
say_when_listening() {
    local port=${3##*:} it threads
    [[ $port =~ ^[0-9]{1,5}$ ]] || return
    for it in $(seq 600); do
        sleep 0.1
        kill -0 "$1" 2>/dev/null || return
        ! is_listening "$port" "$1" || { say "the $2 starts at $3"; tell_ready "$3"; break; }
    done
    [[ $it != 600 && $4 =~ ^[0-9]{1,2}$ && $5 =~ ^[0-9]{6,}$ ]] || return
    sleep 1
    threads=("/proc/$1/task"/*)
    kill -0 "$1" 2>/dev/null && [ ${#threads[@]} -lt $((10#$4)) ] || return
    say "only ${#threads[@]} of $4 workers could be started: tasks or memory may be limited"
}

# Runs the program, and ends with its status.
run_program() {
    local status serving='' started=() notify=${NOTIFY_SOCKET-}
    unset NOTIFY_SOCKET
    # With this, a file that grows past a limit is a fault with its status, not an end in the middle of the file. No
    # core: it may hold a key.
    trap '' XFSZ
    ulimit -c 0
    # A file that the program opens never gets the number of a standard stream. Nothing can be written to one that was
    # closed.
    { : <&0; } 2>/dev/null || exec 0</dev/null
    { : >&1; } 2>/dev/null || exec 1</dev/null
    { : >&2; } || exec 2</dev/null
    # A program that serves ends with this process, however that ends: otherwise it would keep the journal. Without
    # setpriv it takes this process's place, and nothing is said of its status.
    [ "$1" != trustee ] || [ $# -lt 6 ] || serving=trustee
    [ "$1" != aggregate ] || [ $# -lt 7 ] || serving=aggregator
    if [ -n "$serving" ]; then
        if command -v setpriv >/dev/null && setpriv --pdeathsig KILL true 2>/dev/null; then
            started=(setpriv --pdeathsig KILL)
        else
            (say_when_listening $$ "$serving" "$4" "$5" "$6" >/dev/null &)
            exec "$program" "$@"
        fi
    fi
    # The input is passed on: otherwise a command that a script starts in the background would read nothing, and a piped
    # message would be taken for an empty one. A signal is passed on to the program too.
    "${started[@]}" "$program" "$@" <&0 &
    program_at=$!
    trap 'kill "$program_at" 2>/dev/null' HUP INT TERM
    [ -z "$serving" ] || (say_when_listening "$program_at" "$serving" "$4" "$5" "$6" </dev/null >/dev/null &)
    while wait "$program_at"; status=$?; kill -0 "$program_at" 2>/dev/null; do :; done
    say_of_status "$status" "$@"
    exit "$status"
}
