#!/bin/sh
# Builds Debian packages from an installed tree, with dpkg-deb alone: the shared library, what is needed to build with it, and the programs
# with the tool and the examples. `make deb` makes the tree.
#
#     packaging/deb.sh TREE OUTPUT VERSION SONUMBER          TREE is taken apart; the packages are left in OUTPUT
set -eu
tree=$1 output=$2 version=$3-1 library=librestart$4 upstream=$3
arch=amd64 multiarch=x86_64-linux-gnu
maintainer=${DEB_MAINTAINER:-Cifrodeny maintainers <maintainers@users.noreply.cifrodeny.example>}
here=$(dirname "$0")
# The same packages from the same sources: every date is that of the last commit, or of the changelog where there is none.
SOURCE_DATE_EPOCH=${SOURCE_DATE_EPOCH:-$(git -C "$here" log -1 --format=%ct 2>/dev/null || stat -c %Y "$here/../CHANGELOG.md")}
export SOURCE_DATE_EPOCH

# What is compiled in a folder, and no script.
compiled() { # FOLDER
    find "$1" -type f | while read -r file; do
        if [ "$(head -c 4 "$file" | tail -c 3)" = ELF ]; then echo "$file"; fi
    done
}

# The least glibc with which that runs, as a dependency.
glibc() { # FOLDER
    compiled "$1" | xargs readelf --dyn-syms -W | sed -n 's/.*@GLIBC_\([0-9.]*\).*/\1/p' | sort -uV | tail -n 1 | sed 's/.*/libc6 (>= &)/'
}

# Moves what belongs to a package out of the tree.
take() { # PACKAGE PATTERN ..
    root=$output/deb/$1
    shift
    mkdir -p "$root/DEBIAN"
    for pattern in "$@"; do
        (cd "$tree" && find . -path "./$pattern" ! -type d) | while read -r file; do
            mkdir -p "$root/$(dirname "$file")" && mv "$tree/$file" "$root/$file"
        done
    done
}

# Adds what Debian asks of every package (copyright, changelogs, packed pages, sums) and builds it.
pack() { # PACKAGE FIELDS, from standard input
    root=$output/deb/$1 doc=$output/deb/$1/usr/share/doc/$1
    mkdir -p "$doc"
    cp "$here/copyright" "$doc/copyright"
    gzip -9nc "$here/../CHANGELOG.md" >"$doc/changelog.gz"
    printf 'restart (%s) unstable; urgency=medium\n\n  * Version %s; changelog.gz says what changes for users.\n\n -- %s  %s\n' \
        "$version" "$upstream" "$maintainer" "$(LC_ALL=C date -u -d "@$SOURCE_DATE_EPOCH" '+%a, %d %b %Y %H:%M:%S +0000')" |
        gzip -9n >"$doc/changelog.Debian.gz"
    if [ -d "$root/usr/share/man" ]; then
        find "$root/usr/share/man" -type f -exec gzip -9n {} +
        find "$root/usr/share/man" -type l | while read -r link; do
            ln -s "$(readlink "$link").gz" "$link.gz" && rm "$link"
        done
    fi
    find "$root" -type d -exec chmod 755 {} +
    { printf 'Package: %s\nSource: restart\nVersion: %s\nArchitecture: %s\nMaintainer: %s\nPriority: optional\nInstalled-Size: %s\n' \
        "$1" "$version" "$arch" "$maintainer" "$(du -sk --apparent-size "$root/usr" | cut -f1)" && cat; } >"$root/DEBIAN/control"
    (cd "$root" && find usr -type f | sort | xargs md5sum) >"$root/DEBIAN/md5sums"
    chmod 644 "$root/DEBIAN/control" "$root/DEBIAN/md5sums"
    dpkg-deb --root-owner-group -Zxz --build "$root" "$output/${1}_${version}_$arch.deb" >/dev/null
}

rm -rf "$output/deb/$library" "$output/deb/librestart-dev" "$output/deb/restart-tools"
compiled "$tree/usr" | xargs strip --strip-unneeded
find "$tree/usr/lib" -type f -name '*.a' -exec strip --strip-debug {} +
sed -i '1s|.*|#!/usr/bin/python3|' "$tree/usr/bin/restart-text"

take "$library" "usr/lib/$multiarch/librestart.so.*"
chmod 644 "$output/deb/$library/usr/lib/$multiarch/librestart.so.$upstream"
echo "librestart $4 $library (>= $upstream)" >"$output/deb/$library/DEBIAN/shlibs"
echo "activate-noawait ldconfig" >"$output/deb/$library/DEBIAN/triggers"
pack "$library" <<EOF
Section: libs
Multi-Arch: same
Depends: $(glibc "$output/deb/$library/usr/lib")
Description: restart planner of a replicated store (shared library)
 After all machines of a replicated store have stopped, the planner decides
 from their reports whether it can restart without the loss of an acknowledged
 update, which machines carry which shards, and from whose log each of them
 takes what it lacks. Its calls are proved, and have neither memory of their
 own nor input and output.
EOF

take librestart-dev "usr/include/*" "usr/lib/$multiarch/*" "usr/share/man/man3/*"
pack librestart-dev <<EOF
Section: libdevel
Multi-Arch: same
Depends: $library (= $version)
Suggests: restart-tools
Description: restart planner of a replicated store (development files)
 The header, the archive, the files for pkg-config and CMake, and the manual
 pages of the library that plans the restart of a replicated store after all
 its machines have stopped. The package restart-tools has examples.
EOF

take restart-tools "usr/bin/*" "usr/share/man/*" "usr/share/restart/*" "usr/share/doc/restart/*" "usr/share/bash-completion/*"
mkdir -p "$output/deb/restart-tools/usr/share/doc/restart-tools"
ln -s ../../restart/example "$output/deb/restart-tools/usr/share/doc/restart-tools/examples"
cp "$here/postinst" "$here/prerm" "$output/deb/restart-tools/DEBIAN"
chmod 755 "$output/deb/restart-tools/DEBIAN/postinst" "$output/deb/restart-tools/DEBIAN/prerm"
pack restart-tools <<EOF
Section: admin
Depends: $(glibc "$output/deb/restart-tools/usr/bin"), $library (>= $upstream), python3:any (>= 3.11)
Description: restart planner of a replicated store (programs)
 The program restart decides from the reports of the machines of a replicated
 store, all of which have stopped, whether and how it restarts; sheet says for
 every set of machines whether it could; mondays adds up the moves of the last
 restarts. The tool restart-text explains and draws their answers, plans shifts
 and repairs, and converts reports. With examples.
EOF

left=$(find "$tree" ! -type d)
[ -z "$left" ] || { echo "in no package: $left" >&2; exit 1; }
