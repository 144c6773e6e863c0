#!/bin/sh
# Installs into temporary folders and uses what was installed from outside the repository: by pkg-config, CMake, Python and Rust, in its
# place and moved; then uninstalls. The last line is `N passed, M failed`.
set -u
cd "$(dirname "$0")/../.." || exit 1
root=$PWD
room=$(mktemp -d) || exit 1
trap 'rm -rf "$room"' EXIT
passed=0 failed=0

check() { # WHAT COMMAND ..
    what=$1
    shift
    if ("$@") >"$room/log" 2>&1; then
        passed=$((passed + 1))
    else
        failed=$((failed + 1))
        echo "FAILED: $what"
        cat "$room/log"
    fi
}

# What must stand under the prefix.
names() {
    echo bin/restart bin/mondays bin/sheet bin/restart-cluster include/restart.h lib/librestart.a lib/pkgconfig/restart.pc
    echo "lib/librestart.so lib/librestart.so.1 lib/librestart.so.$version"
    echo lib/cmake/restart/restart-config.cmake lib/cmake/restart/restart-config-version.cmake
    echo share/man/man1/restart.1 share/man/man1/restart-cluster.1 share/man/man1/mondays.1 share/man/man1/sheet.1 share/man/man3/restart.3
    echo share/man/man7/restart.7 share/man/man7/restart-model.7
    sh c/names.sh | sed 's|.*|share/man/man3/&.3|'
    for report in examples/reports/*.bin; do echo "share/restart/example/reports/${report##*/}"; done
    for name in settings.bin moves.bin moves.txt seven.bin seven.sheet; do echo "share/restart/example/$name"; done
    for file in examples/cluster/*; do echo "share/restart/example/cluster/${file##*/}"; done
}

all_there() { # FOLDER
    { names && tool_names; } | tr ' ' '\n' | sort >"$room/expected"
    (cd "$1" && find . ! -type d | sed 's|^\./||' | sort) >"$room/found"
    diff "$room/expected" "$room/found"
}

# The operators' tool.
tool_names() {
    echo bin/restart-text share/man/man1/restart-text.1 share/bash-completion/completions/restart-text
    echo share/doc/restart/ASSUMPTIONS.md share/doc/restart/PROMISES.md
    for name in case-a case-b case-f case-i night caps seven eight shift; do echo "share/restart/example/$name.txt"; done
    for name in check convert diff explain publisher readiness rounds shift status; do echo "share/restart/$name.schema.json"; done
    (cd operators && find restart_text -name '*.py' | sed 's|^|share/restart/|')
}

expected_output() {
    printf 'report 0, 1 word, must stay 1, reason 2, gap 0, wait 2\nreport 0, 1 word, must stay 3, reason 2, gap 0, plan 4\npage of 72 words, placed 1\n' | diff - "$1"
}

# Builds the program in a folder of its own, with the flags of pkg-config under this sysroot, and runs it, without any other path: over the
# shared library, over the archive, and linked statically.
outside() { # COMPILER STANDARD LIBRARY-FOLDER SYSROOT
    mkdir -p "$room/outside" && cp "$root/tests/c/outside.c" "$room/outside/program.$1" && cd "$room/outside" || return
    language=c
    [ "$1" = g++ ] && language=c++
    for way in -lrestart -l:librestart.a --static; do
        kind=
        [ $way = --static ] && kind=--static
        # shellcheck disable=SC2086
        flags=$(PKG_CONFIG_PATH=$3/pkgconfig PKG_CONFIG_SYSROOT_DIR=$4 pkg-config $kind --cflags --libs restart) || return
        [ $way = -l:librestart.a ] && flags=$(echo "$flags" | sed "s|-lrestart|$way|")
        # shellcheck disable=SC2046,SC2086
        "$1" "-std=$2" -Wall -Wextra -Werror -pedantic -x $language "program.$1" -x none $flags -o program || return
        ./program >printed && expected_output printed || return
        readelf -dW program >needed
        case $way in
        -lrestart) grep -q 'NEEDED.*\[librestart.so.1\]' needed || return ;;
        -l:librestart.a) ! grep -q 'NEEDED.*librestart' needed || return ;;
        --static) ! grep -q NEEDED needed || return ;;
        esac
    done
}

# A library that programs find by themselves has no runpath.
searched() {
    for folder in /usr/lib /usr/local/lib /usr/lib/x86_64-linux-gnu; do
        make --no-print-directory target/restart.pc LIBDIR=$folder && ! PKG_CONFIG_PATH=target pkg-config --libs restart | grep rpath || return
    done
}

# The header's checks: an answer that is not looked at and a null pointer are told by the compiler.
told() { # LIBRARY-FOLDER
    cd "$room" && printf '#include <restart.h>\nint main(void) { %s; return 0; }\n' \
        'uint8_t s[640]; restart_check_settings(s, 28)' >unused.c && sed 's/restart_check.*; return/return (int)restart_check_settings(0, 28);/' unused.c >null.c
    flags=$(PKG_CONFIG_PATH=$1/pkgconfig pkg-config --cflags restart) || return
    for name in unused null; do
        # shellcheck disable=SC2086
        gcc -std=c11 -Wall $flags -c -o /dev/null $name.c || return
        # shellcheck disable=SC2086
        gcc -std=c11 -Wall -Werror $flags -c -o /dev/null $name.c && return 1
    done
    return 0
}

from_python() { # LIBRARY-FOLDER
    python3 "$root/tests/c/from_python.py" "$1/librestart.so.1" >"$room/printed" && expected_output "$room/printed"
}

from_rust() { # LIBRARY-FOLDER
    for way in dylib static; do
        RESTART_VERSION=$version rustc --edition 2021 -L "$1" -l "$way=restart" -o "$room/program" "$root/tests/c/from_rust.rs" || return
        LD_LIBRARY_PATH=$1 "$room/program" >"$room/printed" && expected_output "$room/printed" || return
    done
}

from_cmake() { # PREFIX-FOLDER
    rm -rf "$room/cmake" && mkdir "$room/cmake" && cp "$root/tests/c/cmake/CMakeLists.txt" "$root/tests/c/outside.c" "$room/cmake" &&
        cmake -S "$room/cmake" -B "$room/cmake/build" -DCMAKE_PREFIX_PATH="$1" && cmake --build "$room/cmake/build" || return
    for kind in restart static; do
        "$room/cmake/build/with-$kind" >"$room/printed" && expected_output "$room/printed" || return
    done
}

# The archives of make dist: the sources, and the installed tree, which is used where it is unpacked.
archives() {
    make --no-print-directory dist && mkdir "$room/unpacked" && tar -xzf "target/restart-$version-x86_64-linux.tar.gz" -C "$room/unpacked" &&
        tar -xzf "target/restart-$version.tar.gz" -C "$room/unpacked" || return
    test -f "$room/unpacked/restart-$version/README.md" && test ! -e "$room/unpacked/restart-$version/target" &&
        test -f "$room/unpacked/restart-$version-x86_64-linux/CHANGELOG.md" &&
        outside gcc c11 "$room/unpacked/restart-$version-x86_64-linux/lib" ""
}

# What was installed is used from another place.
moved() { # PREFIX-FOLDER
    mv "$1" "$room/moved" && outside gcc c11 "$room/moved/lib" "" && from_cmake "$room/moved"
    status=$?
    mv "$room/moved" "$1" && return $status
}

# The example as installed, and built from its installed source, prints its version and puts a first view on a disk, once.
installed_example() { # PREFIX-FOLDER
    cd / || return
    # shellcheck disable=SC2046
    gcc -std=c11 -o "$room/program" "$1"/share/restart/example/cluster/*.c $(PKG_CONFIG_PATH=$1/lib/pkgconfig pkg-config --cflags --libs restart) || return
    for program in "$1/bin/restart-cluster" "$room/program"; do
        rm -rf "$room/disk" && mkdir "$room/disk" || return
        LD_LIBRARY_PATH=$1/lib "$program" --version | grep -qx "restart-cluster $version" || return
        LD_LIBRARY_PATH=$1/lib "$program" format --settings "$1/share/restart/example/settings.bin" --folder "$room/disk" || return
        LD_LIBRARY_PATH=$1/lib "$program" format --settings "$1/share/restart/example/settings.bin" --folder "$room/disk" 2>/dev/null && return 1
        LD_LIBRARY_PATH=$1/lib "$program" show --folder "$room/disk" | grep -q '^sure view 1, members 7f' || return
    done
}

# The example's settings and first six reports, each block preceded by its word count.
blocks() {
    for block in settings.bin reports/1-machine-[0-5].bin; do
        python3 -c 'import os, struct, sys; sys.stdout.buffer.write(struct.pack("<I", os.path.getsize(sys.argv[1]) // 4))' "$block"
        cat "$block"
    done
}

installed_program() { # PREFIX-FOLDER
    cd "$1/share/restart/example" && blocks | "$1/bin/restart" >"$room/printed" && diff - "$room/printed" <<'PLAN'
view 8
moves 2
shard 0 holder 0 target 7 2 members 0 2
shard 1 holder 1 target 7 5 members 1 4 5
shard 2 holder 5 target 7 3 members 3
PLAN
}

# The tool asks the program and the library that are installed with it; what Python leaves behind is removed as well.
installed_tool() { # PREFIX-FOLDER
    cd / && "$1/bin/restart-text" explain "$root/examples/case-a.txt" >"$room/printed" &&
        grep -q '^Plan: new view 8 after view 7, 2 moves' "$room/printed" || return
    "$1/bin/restart-text" explain "$root/examples/night.txt" >"$room/printed"
    test $? = 1 && grep -q '^Switch on machines rack1-c, rack3-a and rack3-b' "$room/printed" || return
    "$1/bin/restart-text" explain "$1/share/restart/example/night.txt" --gone rack1-c >"$room/printed"
    test $? = 1 && grep -q "by its duties ($1/share/doc/restart/ASSUMPTIONS.md" "$room/printed" || return
    test "$("$1/bin/restart-text" --version)" = "restart-text $version" && grep -q "restart-text $version" "$1/share/bash-completion/completions/restart-text" || return
    rm -rf "$room/ours" && "$1/bin/restart-text" convert "$root/examples/flat" -o "$room/ours" >"$room/printed"
    test $? = 2 && grep -q '^1-machine-1.bin: converted, machine 1 in view 7' "$room/printed" && cmp "$root/examples/flat/1-machine-0.bin" "$room/ours/1-machine-0.bin"
}

installed_mondays() { # PREFIX-FOLDER
    cd "$1/share/restart/example" && "$1/bin/mondays" <moves.bin >"$room/printed" && test -s moves.txt && diff moves.txt "$room/printed"
}

installed_sheet() { # PREFIX-FOLDER
    cd "$1/share/restart/example" && "$1/bin/sheet" <seven.bin >"$room/printed" && test -s seven.sheet && diff seven.sheet "$room/printed" || return
    "$1/bin/restart-text" readiness seven.bin >"$room/printed" && grep -q '^With all 7 machines up a restart exists' "$room/printed"
}

version_is() { # VERSION LIBRARY-FOLDER
    test "$(PKG_CONFIG_PATH=$2/pkgconfig pkg-config --modversion restart)" = "$1"
}

nothing_left() { # FOLDER
    test -z "$(find "$1" ! -type d)" && test ! -e "$1/share/restart"
}

try() { # DESTDIR PREFIX CHECK
    check "install under $2" make --no-print-directory install DESTDIR="$1" PREFIX="$2"
    check "what is installed" all_there "$1$2"
    check "a C program" outside gcc c11 "$1$2/lib" "$1"
    check "a C++ program" outside g++ c++17 "$1$2/lib" ""
    check "the version" version_is "$version" "$1$2/lib"
    check "the example" installed_example "$1$2"
    check "the program restart" installed_program "$1$2"
    check "the program mondays" installed_mondays "$1$2"
    check "the program sheet" installed_sheet "$1$2"
    check "the tool" installed_tool "$1$2"
    check "a manual page" groff -t -man -Tutf8 -ww "$1$2/share/man/man3/restart_decide.3"
    "$3" "$1$2"
    check "uninstall" make --no-print-directory uninstall DESTDIR="$1" PREFIX="$2"
    check "what is left" nothing_left "$1$2"
}

other_languages() { # PREFIX-FOLDER
    check "what the compiler tells" told "$1/lib"
    check "Python" from_python "$1/lib"
    check "Rust" from_rust "$1/lib"
}

other_places() { # PREFIX-FOLDER
    check "moved" moved "$1"
}

version=$(sed -n 's/^#define RESTART_VERSION "\(.*\)"/\1/p' include/restart.h)
try "$room/staged" /opt/planner other_languages
try "" "$room/direct" other_places
check "archives" archives
check "no runpath where none is needed" searched
echo "$passed passed, $failed failed"
[ "$failed" = 0 ]
