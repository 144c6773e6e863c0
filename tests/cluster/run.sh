#!/bin/sh
# Builds examples/cluster over target/librestart.a, as it is and with switches that leave a duty out, and the disk that can lose power, and runs
# the tests with real processes. The last line is `N passed, M failed`. `make lib` builds the library first.
set -eu
cd "$(dirname "$0")/../.."
. gate/needs.sh
needs gcc

out=target/cluster
mkdir -p $out
flags="-std=c11 -O1 -g -Wall -Wextra -Werror -pedantic -Wconversion -Iinclude"
# shellcheck disable=SC2086
gcc $flags -o $out/restart-cluster examples/cluster/*.c target/librestart.a
# shellcheck disable=SC2086
gcc $flags -DCLUSTER_SWITCHES -o $out/restart-cluster-faulty examples/cluster/*.c target/librestart.a
# shellcheck disable=SC2086
gcc $flags -fPIC -shared -o $out/power.so tests/cluster/power.c
exec python3 tests/cluster/run.py $out
