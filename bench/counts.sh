# The instructions inside calls of the program link_cases, for the scripts that read this file with
# that program as their first word.

cases=$(realpath "$1")
. "$(dirname "${BASH_SOURCE[0]}")/common.sh"
need valgrind python3

inside() { # FUNCTION: the instructions inside the calls of it over the table of cases, each of
    # which must be answered as is wanted
    local count
    count=$(collected "--toggle-collect=$1" "$cases")
    grep -q '^ok' output && [ "$count" -gt 0 ] || {
        echo "bench: $1 in $count instructions, $(head -c 200 output)" >&2
        exit 1
    }
    echo "$count"
}

link() { # KIND SIZE..: what the link takes, letting go of its plan and image with it
    rm -f ./*.o ./*.txt
    python3 "$here/bench/links.py" "$here/tests" "$@"
    inside link_cases::answer::answer_of
}

milliseconds() { # of a run over the table of cases: the least of five means
    local least=0 round start mean k
    for round in 1 2 3 4 5; do
        start=$(date +%s%N)
        for ((k = 0; k < 20; k++)); do "$cases" > output; done
        mean=$((($(date +%s%N) - start) / 20))
        if ((least == 0 || mean < least)); then least=$mean; fi
    done
    python3 -c "print(f'{$least / 1e6:.1f}')"
}

ratio() { # of two counts
    python3 -c "print(f'{$2 / $1:.2f}')"
}
