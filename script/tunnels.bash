# What checks and benchmarks of tunnels share: machines as folders, with configurations from the templates of
# examples/tunnel. A script that sources this has set `top`. The CA is in the folder ca.
tunnels=$top/examples/tunnel

# Makes the CA.
make_ca() { mkdir ca && (cd ca && "$tunnels/certificates" ca) >/dev/null; }

# Makes what a machine keeps in its folder: a key, and a certificate in this name, by default that of the folder.
make_machine() {
    local name=${2-$1} requested issued
    mkdir -p "$1"
    requested=$(cd "$1" && rm -f -- *.key *.csr && "$tunnels/certificates" request "$name") &&
        issued=$(cd ca && "$tunnels/certificates" issue "$name" "../$1/$name.csr") || exit
    [ "${requested##* }" = "${issued##* }" ] || { echo 'request and certificate have different keys' >&2; exit 1; }
    mv "$1/$name.key" "$1/machine.key"
    cp "ca/$name.pem" "$1/machine.pem"
    cp ca/ca.pem ca/revoked.pem "$1"
}

# Takes a template into `text`; replaces in it what has to be there; writes it as the configuration of a machine.
template() { text=$(cat "$tunnels/$1.conf"); }
change() {
    [[ $text == *"$1"* ]] || { echo "a template of examples/tunnel has no $1" >&2; exit 1; }
    text=${text//"$1"/"$2"}
}
configure() { printf '%s\n' "$text" >"$1/tunnel.conf"; }

# Leaves out of `text` the trustees of the aggregator's template from this one on, which are followed by its clients.
without_trustees_from() {
    [[ $text == *"[trustee$1]"* ]] || { echo "a template of examples/tunnel has no trustee $1" >&2; exit 1; }
    text=${text/"[trustee$1]"*'; For the clients'/'; For the clients'}
}
