#!/usr/bin/env bash
# check.sh [--quick | -k WORD]: runs the gate, `rt ci`, and all other checks. It stops at the first
# failure and shows how long each part took. The first line names the commit; the last line counts
# what `rt ci` passed, and the refused wrong bodies. The packages of a release quote both lines
# (bindings/packages.sh). Checks that need a missing tool are skipped and listed at the end; nothing
# is installed. --quick, for daily work, runs all but the wrong bodies and mutants: the gate and the
# later parts run in a copy without them. -k runs the scripts and tests with WORD in their names,
# over what an earlier run built.
set -euo pipefail
cd "$(dirname "$0")"
part=
[ "${1:-}" != -k ] || part=${2:-}
[ $# -eq 0 ] || [ "$*" = --quick ] || [ -n "$part" ] || {
    sed -n '2,8s/^# //p' check.sh >&2
    exit 2
}
. bindings/toolchain.sh

scratch=$(mktemp -d)
trap 'rm -rf "$scratch"' EXIT
TIMEFORMAT='    %0lR, and %0lU + %0lS of processor time'

skip() {
    [ -z "${CI:-}" ] || { echo "skipped, which is an error in CI: $1" >&2; exit 1; }
    echo "$1" >> "$scratch/skipped"
}

# The scripts that compare texts.
scripts() {
    cat << 'END'
bindings/dist.py check
checks/calls.py .
checks/laws.py --check
checks/edits.py crates
bindings/codes.py --check
checks/quotes.py bindings
checks/tables.py crates --check
END
}

ran=no
run_scripts() { # WORD
    local words
    while read -r words; do
        [[ $words == *$1* ]] || continue
        echo "python3 $words"
        time python3 $words < /dev/null
        ran=yes
    done < <(scripts)
    [[ black != *$1* ]] || layout
}

layout() {
    if command -v black > /dev/null; then
        time black --check .
        ran=yes
    else
        skip 'the layout of Python: there is no black'
    fi
}

# Debian's pytest belongs to its own Python, which is not always the first on the path.
for python in /usr/bin/python3 python3 ''; do
    [ -n "$python" ] || skip 'the tests: there is no pytest'
    ! "${python:-true}" -m pytest --version > /dev/null 2>&1 || break
done
at_once=()
! "${python:-false}" -c 'import xdist' 2> /dev/null || at_once=(-n "$(nproc)")

# With ccache, an object that several tests compile is compiled once in a run.
run_tests() { # WORD..
    [ -n "$python" ] || return 0
    local words=(-m pytest -q tests --basetemp "$scratch/of_tests" --durations=12) ended=0
    local -x PATH=/usr/lib/ccache:$PATH CCACHE_DIR=$scratch/ccache CCACHE_BASEDIR=$scratch
    time "$python" "${words[@]}" "$@" | tee "$scratch/tests" || ended=${PIPESTATUS[0]}
    case $ended$ran in
        0* | 5yes) ;; # 5: no test has this name, but a script has
        *) exit 1 ;;
    esac
    sed -n 's/^SKIPPED \[[0-9]*\] [^ ]* //p' "$scratch/tests" >> "$scratch/skipped"
}

list_skipped() {
    [ -s "$scratch/skipped" ] || echo nothing > "$scratch/skipped"
    sort -u "$scratch/skipped" | sed 's/^/skipped: /'
}

touch "$scratch/skipped"
if [ -n "$part" ]; then
    run_scripts "$part"
    run_tests -k "$part" -m 'not by_hand'
    list_skipped
    exit
fi

# The commit, and whether there are changes after it.
commit=$(git rev-parse HEAD 2> /dev/null || echo unknown)
[ -z "$(git status --porcelain 2> /dev/null)" ] || commit+=', and changes'
[ $# -eq 0 ] || commit+=', without its wrong bodies'
echo "commit $commit"

gate() {
    local sources
    sources=$(python3 bindings/sources.py)
    rm -rf crates/*/out/rlib # rt ci would put back what it finds, over its own results
    rt ci 2>&1 | tee "$scratch/gate" | sed '$d' || {
        tail -n 1 "$scratch/gate"
        return 1
    }
    echo "$sources" > crates/chinese_number/out/gate # bindings/library.sh compares it
}

run_scripts ''
run_tests "${at_once[@]}" -m 'not built and not packages and not by_hand'

# A clone's files, by themselves and without `rt` on the path.
mkdir "$scratch/clone"
tar -c README.md README.zh.md bindings dist docs test.py tests | tar -x -C "$scratch/clone"
without_rt=$(tr : '\n' <<< "$PATH" | grep -vxF "$(dirname "$(command -v rt)")" | paste -sd :)
time PATH=$without_rt python3 "$scratch/clone/test.py"

if [ $# -gt 0 ]; then
    mkdir "$scratch/copy"
    tar -c --exclude=./.git --exclude=must-fail --exclude=wrong-bodies --exclude=out . \
        | tar -x -C "$scratch/copy"
    cd "$scratch/copy"
fi
time gate

# The programs, and the library for other languages, made from what the gate has proved.
time bash bindings/archive.sh "$scratch/library"
time python3 bindings/dist.py again "$scratch/library"
run_tests "${at_once[@]}" --library "$scratch/library" -m 'built and not by_hand'

# The wrong bodies, and the mutants of what changed, with the libraries that the gate has built.
passed=$(sed -n '$s/ passed, 0 failed$//p' "$scratch/gate")
if [ $# -eq 0 ]; then
    time python3 checks/mutants.py --built --gate --minutes 6 | tee "$scratch/mutants"
    time python3 checks/wrong_bodies.py --built | tee "$scratch/wrong_bodies"
    refused=$(grep -oP '^wrong bodies: \K\d+(?= refused)' "$scratch/wrong_bodies")
    passed=$((passed + refused))
fi

# The packages that users install, with the result of this gate.
{
    echo "commit $commit"
    sed '$d' "$scratch/gate"
    [ $# -gt 0 ] || grep '^waiting: ' "$scratch/mutants"
    echo "$passed passed, 0 failed"
} > "$scratch/checked"
time bash bindings/packages.sh --draft "$scratch/packages" "$scratch/checked"
run_tests "${at_once[@]}" --packages "$scratch/packages" -m 'packages and not by_hand'

list_skipped
tail -n 1 "$scratch/checked"
