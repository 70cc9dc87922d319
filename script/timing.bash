# Prints the nanoseconds that a command takes: the fastest of RUNS runs, by default 5. Whatever else a machine and its
# host do makes a run slower, and never faster.
fastest() {
    local begin end least=0
    for ((run = 0; run < ${RUNS:-5}; run++)); do
        begin=$(date +%s%N)
        "$@" >/dev/null
        end=$(date +%s%N)
        ((least > 0 && least <= end - begin)) || least=$((end - begin))
    done
    echo "$least"
}
