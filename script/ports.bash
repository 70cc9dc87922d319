# Ports of this machine for checks, examples and benchmarks.

# Prints the first of this many free ports in a row, below those that the system hands to clients; or PORT, if set.
free_ports() {
    local most first at taken
    [ -z "${PORT-}" ] || { echo "$PORT"; return; }
    most=$(cut -f 1 /proc/sys/net/ipv4/ip_local_port_range 2>/dev/null) || most=32768
    [ "$most" -gt 14000 ] || most=32768
    taken=" $(awk 'FNR > 1 { sub(/.*:/, "", $2); printf "%s ", $2 }' /proc/net/tcp /proc/net/tcp6 2>/dev/null)"
    while :; do
        first=$((most - 1000 - RANDOM % 10000))
        for ((at = first; at < first + $1; at++)); do
            [[ $taken != *" $(printf %04X "$at") "* ]] || continue 2
        done
        echo "$first"
        return
    done
}

# Waits until something listens at a port of the address 127.0.0.1; status 1 if nothing does within 20 seconds, or if
# a process whose id is given ends first.
await_port() {
    local line
    line=$(printf '0100007F:%04X 00000000:0000 0A' "$1")
    for _ in $(seq 400); do
        ! grep -q "$line" /proc/net/tcp || return 0
        [ -z "${2-}" ] || kill -0 "$2" 2>/dev/null || return 1
        sleep 0.05
    done
    return 1
}
