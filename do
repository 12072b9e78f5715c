#!/usr/bin/env bash
# The six things that one does here, a word for each:
#
#     ./do build              proves and builds the program of these sources, if it isn't built
#     ./do check CRATE...     proves these crates, and what they use
#     ./do test               tries the program from outside, in minutes, without a toolchain
#     ./do gate               runs the merge gate, an hour or more from nothing
#     ./do fmt                lays out the files of each crate as the gate wants them
#     ./do mutants CRATE...   tries the mutants of these crates, those of the gate and the others
#
# docs/MUTANTS.md says what mutants are.
set -euo pipefail
cd "$(dirname "$(readlink -f "${BASH_SOURCE[0]}")")"

refuse() {
    echo "./do: $*; ./do --help says what there is" >&2
    exit 2
}

# Whether each word names a crate, and there is one.
are_crates() {
    [ $# -gt 0 ] || refuse "which crate?"
    local crate
    for crate in "$@"; do
        [ -d "crates/$crate/src" ] || refuse "there is no crate $crate"
    done
}

what="${1-}"
[ $# = 0 ] || shift
case "$what" in
build)
    ./alcrs --from-source --version
    ;;
check)
    are_crates "$@"
    for crate in "$@"; do
        (cd "crates/$crate" && rt check)
    done
    ;;
test)
    # A relative ALCRS_PROGRAM is meant from the caller's folder.
    cd "$OLDPWD"
    exec "$OLDPWD/ci/all"
    ;;
gate)
    .ci/run
    ;;
fmt)
    for folder in crates/*/; do
        (cd "$folder" && rt fmt)
    done
    ;;
mutants)
    are_crates "$@"
    for crate in "$@"; do
        [ ! -d "crates/$crate/must-fail" ] || rt must-fail "$crate"
    done
    mutants/try "$@"
    ;;
-h | --help)
    awk 'NR > 1 && !/^#/ { exit } NR > 1 { sub(/^# ?/, ""); print }' "$0"
    ;;
"") refuse "nothing to do was named" ;;
*) refuse "there is no $what" ;;
esac
