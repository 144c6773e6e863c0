#!/bin/sh
# Builds the Debian packages and looks into them: what stands in which, what they depend on, whether they work where they are unpacked, and what
# lintian says, if it can be had soon. The last line is `N passed, M failed`.
set -u
cd "$(dirname "$0")/../.." || exit 1
. gate/needs.sh
room=$(mktemp -d) || exit 1
trap 'rm -rf "$room"' EXIT
passed=0 failed=0
version=$(sed -n 's/^#define RESTART_VERSION "\(.*\)"/\1/p' include/restart.h)
lib=usr/lib/x86_64-linux-gnu

check() { # WHAT COMMAND ..
    what=$1
    shift
    if ("$@") >"$room/log" 2>&1; then
        passed=$((passed + 1))
    else
        failed=$((failed + 1))
        echo "FAILED: $what"
        cat "$room/log"
    fi
}

package() { # NAME
    echo "target/${1}_$version-1_amd64.deb"
}

# Unpacks the packages, and lists what each installs, without folders.
unpacked() {
    for name in librestart1 librestart-dev restart-tools; do
        dpkg-deb -x "$(package $name)" "$room/root" && dpkg-deb -c "$(package $name)" | awk '!/^d/ { print substr($6, 3) }' | sort >"$room/$name" || return
    done
    test -z "$(find "$room/root" -xtype l)"
}

has() { # PACKAGE FILE
    grep -qx "$2" "$room/$1"
}

# Everything that make install puts anywhere, each in its package.
contents() {
    make --no-print-directory install DESTDIR="$room/tree" PREFIX=/usr LIBDIR="/$lib" >/dev/null || return
    (cd "$room/tree" && find . ! -type d) | sed 's|^\./||; s|^\(usr/share/man/.*\)|\1.gz|' | sort >"$room/installed"
    (cd "$room" && cat librestart1 librestart-dev restart-tools) | grep -Ev '^usr/share/doc/(librestart1|librestart-dev|restart-tools)(/|$)' | sort | diff "$room/installed" - || return
    has librestart1 "$lib/librestart.so.1" && has librestart1 "$lib/librestart.so.$version" && has librestart-dev "$lib/librestart.so" &&
        has librestart-dev "$lib/pkgconfig/restart.pc" && has librestart-dev usr/share/man/man3/restart_decide.3.gz || return
    for name in restart sheet mondays restart-text; do
        has restart-tools "usr/bin/$name" && has restart-tools "usr/share/man/man1/$name.1.gz" || return
    done
    for name in librestart1 librestart-dev restart-tools; do
        for file in copyright changelog.gz changelog.Debian.gz; do
            has $name "usr/share/doc/$name/$file" || return
        done
    done
}

fields() {
    test "$(dpkg-deb -f "$(package librestart-dev)" Depends)" = "librestart1 (= $version-1)" &&
        dpkg-deb -f "$(package restart-tools)" Depends | grep -q "^libc6 (>= 2\.[0-9]*), librestart1 (>= $version), python3:any" &&
        dpkg-deb -I "$(package librestart1)" shlibs | grep -qx "librestart 1 librestart1 (>= $version)" &&
        dpkg-deb -I "$(package librestart1)" triggers | grep -qx "activate-noawait ldconfig" || return
    for name in librestart1 librestart-dev restart-tools; do
        (cd "$room/root" && dpkg-deb -I "$OLDPWD/$(package $name)" md5sums | md5sum -c --quiet) || return
    done
}

programs() {
    python3 tests/programs/arguments.py "$room/root/usr/bin"
}

tool() {
    cd / && LD_LIBRARY_PATH=$room/root/$lib "$room/root/usr/bin/restart-text" readiness "$room/root/usr/share/doc/restart-tools/examples/seven.bin" >"$room/printed" &&
        grep -q '^With all 7 machines up a restart exists' "$room/printed" &&
        LD_LIBRARY_PATH=$room/root/$lib "$room/root/usr/bin/restart-text" shift "$room/root/usr/share/restart/example/seven.bin" >"$room/printed"
    test $? -le 1 && test -s "$room/printed"
}

# A program over the shared library, which is found by itself once it is installed: no runpath.
outside() {
    flags=$(PKG_CONFIG_LIBDIR=$room/root/$lib/pkgconfig PKG_CONFIG_SYSROOT_DIR=$room/root pkg-config --cflags --libs restart) || return
    # shellcheck disable=SC2086
    gcc -std=c11 -o "$room/program" tests/c/outside.c $flags && ! readelf -dW "$room/program" | grep -i 'r.*path' &&
        LD_LIBRARY_PATH=$room/root/$lib "$room/program" | grep -q 'plan 4$'
}

pages() {
    gzip -t "$room/root"/usr/share/man/man[137]/*.gz && zcat "$room/root/usr/share/man/man3/restart_decide.3.gz" | cmp - man/restart.3
}

scripts() {
    for script in postinst prerm; do
        dpkg-deb -I "$(package restart-tools)" $script | sh -n || return
    done
}

rm -f target/*.deb
check "make deb" make --no-print-directory deb
check "unpacked" unpacked
check "the files of each package" contents
check "what they depend on, and their sums" fields
check "the programs" programs
check "the tool" tool
check "a C program" outside
check "the manual pages" pages
check "the scripts" scripts
if needs_soon 20 lintian; then
    check "lintian" lintian --fail-on error target/*.deb
else
    echo "lintian could not be had soon, and was not asked"
fi
echo "$passed passed, $failed failed"
[ "$failed" = 0 ]
