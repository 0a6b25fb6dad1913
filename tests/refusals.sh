#!/usr/bin/env bash
# Runs each test of the modules `refusals` with one failure at a time. The first allocation fails, then the
# second, and so on, until a run in which none fails; and the same with the starts of worker threads. The
# tests check what an error leaves unchanged, and that a second try succeeds.
#
# A test fails if no allocation fails in it. A module fails in two cases, in which the runs would show nothing:
# - no start of a worker thread fails in its tests;
# - no failed allocation is reported as a worker that could not be started, as one inside a start is.
#
#   tests/refusals.sh                      # every such module of spq_tests
#   tests/refusals.sh loading::refusals .. # these modules
#   tests/refusals.sh --built ..           # the test program as `rt ci` built it
#
# Without --built the tests are proved and built first (rt test). Each run takes some milliseconds, all of them one to
# three minutes.
root=$(cd "$(dirname "$0")/.." && pwd) || exit 1
tests=$root/crates/spq_tests/out/spq_tests_tests
most=5000
wrong=0
room=$(mktemp -d) || exit 1
trap 'rm -rf "$room"' EXIT
cc -O2 -shared -fPIC -o "$room/refusals.so" "$root/tests/refusals.c" || exit 1

# Runs a test in which the Nth call of this kind fails. Returns 0 if the test passes.
run() {
    timeout 60 env "REFUSE_$2=$3" LD_PRELOAD="$room/refusals.so" "$tests" "$1" > "$room/said" 2> "$room/told"
}

# Lets the calls of one kind fail, one by one, and prints how many there were.
refuse_each() {
    local n
    for ((n = 1; n <= most; n++)); do
        if ! run "$1" "$2" "$n"; then
            printf '%s with REFUSE_%s=%s:\n' "$1" "$2" "$n"
            cat "$room/said" "$room/told"
            return 1
        fi
        if ! grep -qx refused "$room/told"; then
            if grep -qE '(memory|a worker|the list) failed' "$room/said"; then
                printf '%s: a failure is reported, but no call failed\n' "$1"
                return 1
            fi
            printf '%s: %s calls failed, one by one, by REFUSE_%s\n' "$1" $((n - 1)) "$2"
            [ "$2" = START ] && starts=$((starts + n - 1))
            if [ "$2" = GROWTH ] && [ "$n" = 1 ]; then
                printf '%s: no allocation failed\n' "$1"
                return 1
            fi
            return 0
        fi
        if [ "$2" = GROWTH ] && grep -qx 'a worker failed' "$room/said"; then
            inside=$((inside + 1))
        fi
        if [ "$2" = START ] && ! grep -qxE '(a worker|the list) failed' "$room/said"; then
            printf '%s: the failed start %s is not reported\n' "$1" "$n"
            return 1
        fi
    done
    printf '%s: more than %s failures\n' "$1" "$most"
    return 1
}

# Runs the tests of a module.
try_module() {
    local name
    starts=0
    inside=0
    for name in $(sed -n "s/^\($1::.*\): test\$/\1/p" "$room/names"); do
        refuse_each "$name" GROWTH || return 1
        refuse_each "$name" START || return 1
    done
    if [ "$starts" = 0 ]; then
        echo "$1: no start of a worker thread failed"
        return 1
    fi
    if [ "$inside" = 0 ]; then
        echo "$1: no failed allocation inside a start is reported as a failed start"
        return 1
    fi
    printf '%s: %s failed allocations are inside a start, and are reported as a failed start\n' "$1" "$inside"
}

if [ "${1-}" = --built ]; then
    shift
    [ -x "$tests" ] || { echo "there is no test program $tests; run rt ci first"; exit 1; }
else
    (cd "$root/crates/spq_tests" && rt test > "$room/log" 2>&1) || { tail "$room/log"; exit 1; }
fi
"$tests" --list > "$room/names" || exit 1
if [ $# = 0 ]; then
    set -- $(sed -n 's/^\(.*::refusals\)::.*: test$/\1/p' "$room/names" | sort -u)
    [ $# -gt 0 ] || { echo "no module refusals has a test"; exit 1; }
fi
for module in "$@"; do
    echo "$module"
    try_module "$module" || wrong=1
done
exit $wrong
