#!/bin/sh
# The names of the functions that the header declares: all, or with `proved` those of the proved calls alone.
cd "$(dirname "$0")/.." || exit 1
proved='s/^uint32_t \(restart_[a-z_]*\)(.*/\1/p'
beside='s/^\(RESTART_NONNULL \)\{0,1\}\(extern\|RESTART_INLINE\) .*[ *]\(restart_[a-z_]*\)(.*/\3/p'
if [ "${1-}" = proved ]; then
    sed -n "$proved" include/restart.h
else
    sed -n -e "$proved" -e "$beside" include/restart.h
fi
