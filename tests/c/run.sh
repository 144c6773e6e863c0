#!/bin/sh
# Builds and runs the tests in C over target/librestart.a, and builds the example: plainly, as C++, under valgrind, with sanitizers,
# with faults put in, and as an installed library. The last line is `N passed, M failed`. `make test-c` builds the
# library first.
set -u
cd "$(dirname "$0")/../.." || exit 1
. gate/needs.sh
needs gcc g++ make valgrind pkg-config groff cmake || exit 1

out=target/c
library=target/librestart.a
shared_library=target/librestart.so.1
log=$out/log
strict="-D_DEFAULT_SOURCE -Iinclude -Wall -Wextra -Werror -pedantic -Wconversion -g"
sanitizers="-fsanitize=address,undefined -fno-sanitize-recover=all"
memcheck="valgrind -q --error-exitcode=9 --leak-check=full --show-leak-kinds=all"
helgrind="valgrind -q --tool=helgrind --error-exitcode=9"
shared="tests/c/harness.c tests/c/calls.c tests/c/world.c tests/c/room.c"
tests="entry_points rows lengths guards roles preview rounds page game cuts remembered caps views flat draft leader"
passed=0 failed=0
mkdir -p $out

# Runs a command and counts: the numbers of its last line, `N passed, M failed`, if it has one, else one.
check() { # WHAT COMMAND ..
    what=$1
    shift
    ("$@") >$log 2>&1
    status=$?
    counts=$(tail -n 1 $log | sed -n 's/^\([0-9]*\) passed, \([0-9]*\) failed$/\1 \2/p')
    # shellcheck disable=SC2086
    set -- ${counts:-$((status == 0)) $((status != 0))}
    [ $status != 0 ] && [ "$2" = 0 ] && set -- "$1" 1
    passed=$((passed + $1)) failed=$((failed + $2))
    if [ "$2" = 0 ]; then
        echo "ok      $what"
    else
        echo "FAILED  $what"
        tail -n 20 $log
    fi
}

# shellcheck disable=SC2086
compile() { # NAME FLAG ..
    name=$1
    shift
    gcc -std=c11 $strict "$@" -o "$out/$name" "tests/c/${name%%-*}.c" $shared $library
}

# shellcheck disable=SC2086
compile_as_cxx() {
    g++ -std=c++11 -x c++ $strict -o $out/entry_points-cxx tests/c/entry_points.c $shared -x none $library &&
        g++ -std=c++11 -x c++ $strict -c -o $out/extra-cxx.o c/restart_extra.c
}

# The example, as people build it and with the switches of its tests.
# shellcheck disable=SC2086
compile_cluster() { # NAME COMPILER FLAG ..
    name=$1
    shift
    "$@" -std=c11 -Iinclude -Wall -Wextra -Werror -pedantic -Wconversion -g -o "$out/$name" examples/cluster/*.c $library
}

# shellcheck disable=SC2086
compile_shared() {
    gcc -std=c11 $strict -o $out/entry_points-shared tests/c/entry_points.c $shared $shared_library
}

# The example's files are those that its text makes.
files_made() {
    rm -rf $out/made && python3 examples/make_reports.py $out/made && cmp examples/settings.bin $out/made/settings.bin &&
        diff -r examples/reports $out/made/reports && python3 examples/make_moves.py $out/made && cmp examples/moves.bin $out/made/moves.bin
}

# The library defines what the header declares and nothing else, the proved object the proved calls and nothing else.
symbols() {
    sh c/names.sh | sort >$out/declared && sh c/names.sh proved | sort >$out/proved
    nm $library | sed -n 's/^[0-9a-f]* [A-Z] //p' | sort >$out/defined
    nm target/staticlib/libc_planner.a | sed -n 's/^[0-9a-f]* [A-Z] //p' | sort >$out/defined-proved
    test "$(wc -l <$out/proved)" -ge 21 && diff $out/declared $out/defined && diff $out/proved $out/defined-proved
}

# The shared library exports the same, under its versions and by its soname; the proved calls are of the first.
exports() {
    nm -D --defined-only $shared_library | sed -n 's/^[0-9a-f]* T \(.*\)@@RESTART_1\(\.1\)\{0,1\}$/\1/p' | sort >$out/exported
    nm -D --defined-only $shared_library | sed -n 's/^[0-9a-f]* T \(.*\)@@RESTART_1$/\1/p' | sort | comm -13 - $out/proved | grep . && return 1
    diff $out/declared $out/exported && readelf -dW $shared_library | grep -q 'SONAME.*\[librestart.so.1\]'
}

# It needs nothing but C's functions on memory, and has no memory of its own that could be written.
needs_little() {
    sh c/names.sh >$out/own
    nm -u $library | sed -n 's/^ *U //p' | grep -vxE 'mem(cpy|move|set|cmp)' | grep -vxF -f $out/own && return 1
    readelf -SW $library | sed 's/^ *\[ *[0-9]*\]//' | awk '$7 ~ /W/ && $5 !~ /^0*$/ { print; found = 1 } END { exit found }'
}

# So does the shared one: what the loader has filled in is read-only afterwards, and no page can be written and executed.
shared_needs_little() {
    nm -D -u $shared_library | sed -n 's/^ *U \([a-z]*\).*/\1/p' | grep -vxE 'mem(cpy|move|set|cmp)' && return 1
    readelf -SW $shared_library | sed 's/^ *\[ *[0-9]*\]//' | awk '$7 ~ /W/ && $1 !~ /^\.(dynamic|got)$/ { print; found = 1 } END { exit found }' || return
    readelf -lW $shared_library | awk '/GNU_STACK/ && / RW / { stack = 1 } /GNU_RELRO/ { relro = 1 } / RWE / { bad = 1 } END { exit bad || !stack || !relro }'
}

# The names of the version script are the header's, and each is in the synopsis or the list of small functions of the manual page.
names_agree() {
    sed -n 's/^ *\(restart_[a-z_]*\);$/\1/p' c/restart.map | sort | diff $out/declared - || return
    while read -r name; do
        grep -q "$name" man/restart.3 || { echo "$name is not in restart(3)" && return 1; }
    done <$out/declared
}

# The worked examples of restart-model(7), turned into words, give the answers that stand there.
model_example() {
    python3 tests/programs/model.py man/restart-model.7 target/bin/restart $shared_library
}

# make help names every command of the Makefile.
help_names_all() {
    sed -n 's/^\.PHONY: help //p' Makefile | tr ' ' '\n' | sort >$out/commands
    make --no-print-directory help | sed -n 's/^make \([a-z-]*\) .*/\1/p' | grep -vx help | sort >$out/helped
    test -s $out/commands && diff $out/commands $out/helped
}

# Nothing but comments in crates/ names a document that is not in the repository.
no_document_01() {
    ! grep -rnE --exclude-dir=target --exclude-dir=out --exclude-dir=.git --exclude-dir=crates \
        '[Dd]ocuments? 0[1-9]|[Rr]equests? (One|Two|Three|Four|Five|Six|Seven|Eight|Nine|Ten|Eleven|Twelve|Thirteen)' .
}

# A fault must be found by this test.
found() { # FAULT TEST
    compile "$2-faulty" "-DFAULT=$1" -include tests/c/faulty.h || return
    ! "$out/$2-faulty" >/dev/null
}

# A stack that is too small is found.
too_small() {
    ! $out/stack 16384
}

# Threads that share what they may not: helgrind must see it.
race() { # HOW
    $helgrind $out/threads "$1" 2>&1 | grep -q 'Possible data race'
}

manual_page() { # FILE
    groff -t -man -Tutf8 -ww -z "$1" >$out/groff 2>&1 && test ! -s $out/groff
}

check "what the library defines" symbols
check "what the shared library exports" exports
check "names in the version script and the manual page" names_agree
check "what the library needs" needs_little
check "what the shared library needs" shared_needs_little
for name in $tests; do
    check "build $name" compile "$name"
    check "$name" "$out/$name"
    # shellcheck disable=SC2086
    check "$name under valgrind" $memcheck "$out/$name"
    # shellcheck disable=SC2086
    check "build $name with sanitizers" compile "$name-sanitized" $sanitizers
    check "$name with sanitizers" "$out/$name-sanitized"
done
check "build as C++" compile_as_cxx
check "entry_points as C++" $out/entry_points-cxx
check "build entry_points over the shared library" compile_shared
check "entry_points over the shared library" env LD_LIBRARY_PATH=target $out/entry_points-shared

check "build threads" compile threads -pthread
check "threads" $out/threads
check "many threads, often" $out/threads 32 20
# shellcheck disable=SC2086
check "threads under helgrind" $helgrind $out/threads
check "two that write one state" race written
check "one that writes what another reads" race read
check "build stack" compile stack -pthread
check "stack" $out/stack
check "a stack of 16 KB is too small" too_small
check "a bound on the stack" python3 tests/c/stack.py $library include/restart.h

check "the example's files" files_made
check "build the example" compile_cluster restart-cluster gcc -O2
check "build the example with switches" compile_cluster restart-cluster-switched gcc -DCLUSTER_SWITCHES
# shellcheck disable=SC2086
check "build the example with sanitizers" compile_cluster restart-cluster-sanitized gcc $sanitizers

fault=0
for name in lengths entry_points entry_points entry_points guards rows guards rows entry_points guards rows lengths rows cuts rows remembered remembered caps caps views views views flat flat flat rows roles roles roles rows page page page preview preview rows preview preview rows entry_points roles preview preview rows game game game game rounds rounds entry_points rounds rounds rows rounds lengths roles rows guards draft draft draft draft leader leader leader leader; do
    fault=$((fault + 1))
    check "fault $fault is found by $name" found $fault $name
done
for file in man/*; do check "$file" manual_page "$file"; done
check "the examples of restart-model(7)" model_example
check "documents that are not there" no_document_01
check "make help" help_names_all
check "installation" sh tests/c/install.sh

echo "$passed passed, $failed failed"
[ "$failed" = 0 ]
