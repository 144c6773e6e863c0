#!/bin/sh
# Guided fuzzing of the calls and of the cluster's messages: run.sh [SECONDS]. Builds both fuzzers with libFuzzer, replays the kept
# inputs, shows that every fault put in is found by them or what the mutator makes of them, and some by fuzzing from nothing, and fuzzes
# each for so many seconds. Where clang or its libFuzzer cannot be had, it says so, replays the kept inputs with gcc and tries others
# without guidance. What is found is left in target/guided/found/. The last line is `N passed, M failed`. `make fuzz-guided` builds the
# library first.
set -u
cd "$(dirname "$0")/../.." || exit 1
. gate/needs.sh

seconds=${1:-8}
out=target/guided
log=$out/log
proved=target/staticlib/libc_planner.a
plainly="-std=c11 -D_DEFAULT_SOURCE -DCLUSTER_VIEWS=16 -Iinclude -Wall -Wextra -Werror -pedantic -g1 -O1"
address="-fsanitize=address -fno-omit-frame-pointer"
undefined="-fsanitize=undefined -fno-sanitize-recover=all"
peer=$(echo tests/peer/c/*.c)
passed=0 failed=0
mkdir -p $out/found

# Counts a command: the numbers of its last line, `N passed, M failed`, if it has one, else one.
check() { # WHAT COMMAND ..
    what=$1
    shift
    ("$@") >$log 2>&1
    status=$?
    counts=$(tail -n 1 $log | sed -n 's/^\([0-9]*\) passed, \([0-9]*\) failed$/\1 \2/p')
    # shellcheck disable=SC2086
    set -- ${counts:-$((status == 0)) $((status != 0))}
    [ $status != 0 ] && [ "$2" = 0 ] && set -- "$1" 1
    passed=$((passed + $1)) failed=$((failed + $2))
    if [ "$2" = 0 ]; then
        echo "ok      $what"
    else
        echo "FAILED  $what"
        tail -n 30 $log
    fi
}

# Compiles what guides the fuzzer with coverage, and the rest without. The peer is not held to -Wconversion.
# shellcheck disable=SC2086
objects() { # COMPILER COVERAGE
    for file in $peer; do "$1" $plainly $address $2 -c -o "$out/peer-$(basename "$file" .c).o" "$file" || return; done
    for name in plain placement; do "$1" $plainly -Wconversion $address $2 -c -o $out/read-$name.o tests/guided/$name.c || return; done
    for name in machine serve disk leader keep; do
        "$1" $plainly $address $undefined $2 -c -o $out/member-$name.o examples/cluster/$name.c || return
    done
    "$1" $plainly -Wconversion $address $undefined $2 -c -o $out/extra.o c/restart_extra.c || return
    for name in calls extras faults steps cluster; do
        "$1" $plainly -Wconversion $address -c -o $out/own-$name.o tests/guided/$name.c || return
    done
    for name in replay mutate mutate_cluster; do "$1" $plainly -Wconversion -c -o $out/own-$name.o tests/guided/$name.c || return; done
}

calls="$out/own-calls.o $out/own-extras.o $out/own-faults.o $out/own-steps.o $out/peer-*.o $out/read-*.o $out/extra.o $proved"
cluster="$out/own-cluster.o $out/member-*.o $out/read-plain.o $out/extra.o $proved"

# shellcheck disable=SC2086
replays() { # COMPILER
    "$1" $address $undefined -o $out/calls-replay $out/own-replay.o $out/own-mutate.o $calls &&
        "$1" $address $undefined -o $out/cluster-replay $out/own-replay.o $out/own-mutate_cluster.o $cluster
}

# shellcheck disable=SC2086
fuzzers() {
    clang $address $undefined -fsanitize=fuzzer -o $out/calls $out/own-mutate.o $calls &&
        clang $address $undefined -fsanitize=fuzzer -o $out/cluster $out/own-mutate_cluster.o $cluster
}

# The fuzzer on the kept inputs and what comes of them; how far it got is said.
fuzz() { # NAME
    rm -rf "$out/$1-inputs" && mkdir -p "$out/$1-inputs" || return
    "$out/$1" -max_total_time="$seconds" -max_len=8192 -timeout=20 -rss_limit_mb=4096 -print_final_stats=1 -verbosity=1 \
        -artifact_prefix="$out/found/$1-" "$out/$1-inputs" "tests/guided/inputs/$1" >"$out/$1.log" 2>&1
    status=$?
    sed -n 's/^#\([0-9]*\)\tDONE *cov: \([0-9]*\) ft: \([0-9]*\).*/\1 executions, \2 edges, \3 features/p' "$out/$1.log" >"$out/$1.reached"
    [ $status = 0 ] && return
    grep -aE 'guided:|ERROR|SUMMARY|Test unit' "$out/$1.log"
    return $status
}

# A fault that is put in is found from nothing, within so many executions.
from_nothing() { # NAME FAULT EXECUTIONS
    ! GUIDED_FAULT=$2 "$out/$1" -runs="$3" -seed=1 -max_len=8192 -timeout=20 -artifact_prefix="$out/fault-" >"$out/fault.log" 2>&1 &&
        grep -qaE 'guided:|AddressSanitizer' "$out/fault.log"
}

needs gcc || exit 1
if needs_fuzzer 60; then
    check "build" objects clang -fsanitize=fuzzer-no-link
    check "build what replays" replays clang
    check "build the fuzzers" fuzzers
else
    echo "no clang with libFuzzer on this machine: the kept inputs are replayed with gcc, and others are tried without guidance"
    rm -f $out/calls $out/cluster
    check "build with gcc" objects gcc ""
    check "build what replays" replays gcc
fi
for name in calls cluster; do
    check "$name: faults are found" "$out/$name-replay" --faults 20000 tests/guided/inputs/$name/*
    if [ ! -x "$out/$name" ]; then
        check "$name: the kept inputs and others" "$out/$name-replay" 3000 tests/guided/inputs/$name/*
        continue
    fi
    check "$name: the kept inputs" "$out/$name-replay" 0 tests/guided/inputs/$name/*
    check "$name: $seconds seconds" fuzz $name
    echo "        $(cat "$out/$name.reached")"
done
if [ -x $out/calls ]; then
    check "a fault of decide is found from nothing" from_nothing calls 9 20000
    check "a fault of the leader's file is found from nothing" from_nothing calls 21 20000
    check "views that anybody may ask for are found from nothing" from_nothing cluster 3 20000
fi
rm -f $out/fault-*

echo "$passed passed, $failed failed"
[ "$failed" = 0 ]
