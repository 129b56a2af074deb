# What the tests of refused memory share. They read this file.

# How long a run may take, in seconds. One that takes longer ends with the status 124, which is in no right answer.
patience=300

# Runs a program once for each of its allocations, with that one refused, and gives each answer to the function `is_right`
# of the test. It says how many allocations there were.
#
# usage: each_allocation FOLDER PROGRAM [WORD..]    with a folder for what is built
each_allocation() {
    folder=$1
    shift
    cc -shared -fPIC -O1 -Wall -Wextra -o "$folder/refuse.so" "$tests/refuse.c"
    refused=0
    while :; do
        next=$((refused + 1))
        rm -f "$folder/count"
        answer=$(timeout --foreground "$patience" env REFUSED=$next COUNTED="$folder/count" LD_PRELOAD="$folder/refuse.so" "$@" 2>&1 || echo "status $?")
        if ! is_right "$answer"; then
            echo "with allocation $next refused: $answer"
            exit 1
        fi
        asked=$(cat "$folder/count")
        [ "$asked" -ge "$next" ] || break
        refused=$next
    done
    [ "$refused" -gt 0 ]
    echo "refused memory: each of $refused allocations was refused in turn"
}
