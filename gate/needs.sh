# needs COMMAND ..                 installs, with Debian's apt-get, the packages of those commands that are not there.
# needs_soon SECONDS COMMAND ..    the same without recommended packages, unless fetching takes longer; fails where it cannot be done.
# needs_linters SECONDS            the linters of checks/fast.py, in the same way.
# needs_fuzzer SECONDS             clang with libFuzzer and the sanitizers, in the same way; fails where it cannot be had.
# shellcheck shell=sh

lacking() {
    for wanted in "$@"; do
        command -v "$wanted" >/dev/null || printf ' %s' "$wanted"
    done
}

# Parts of the gate that run at the same time install one after another.
in_turn() {
    if command -v flock >/dev/null; then flock "${TMPDIR:-/tmp}/restart-needs.lock" "$@"; else "$@"; fi
}

needs() {
    missing=$(lacking "$@")
    [ -z "$missing" ] && return 0
    echo "installing$missing"
    # shellcheck disable=SC2086
    in_turn sh -c 'apt-get update -qq && DEBIAN_FRONTEND=noninteractive apt-get install -y -qq "$@" >/dev/null' sh $missing
}

# Only fetching is ever broken off, so that no package is left half installed.
needs_soon() {
    seconds=$1
    shift
    missing=$(lacking "$@")
    [ -z "$missing" ] && return 0
    echo "installing$missing"
    # shellcheck disable=SC2016,SC2086
    in_turn sh -c 'seconds=$1; shift; get="apt-get install -y -qq --no-install-recommends"; export DEBIAN_FRONTEND=noninteractive
        timeout "$seconds" sh -c "apt-get update -qq && $get --download-only $*" >/dev/null && $get --no-download "$@" >/dev/null' \
        sh "$seconds" $missing
}

# rustfmt and clippy belong to Rust.
needs_linters() {
    needs_soon "$1" flake8 clang-format shellcheck
}

fuzzes() {
    printf 'int LLVMFuzzerTestOneInput(const char *input, unsigned long length) { return input == 0 && length > 0; }' |
        clang -fsanitize=fuzzer,address,undefined -x c -o /dev/null - 2>/dev/null
}

# libFuzzer is in a package of its own, by clang's version.
needs_fuzzer() {
    fuzzes && return 0
    needs_soon "$1" clang || return
    fuzzes && return 0
    package=libclang-rt-$(clang -dumpversion | sed 's/\..*//')-dev
    echo "installing $package"
    # shellcheck disable=SC2016
    in_turn sh -c 'get="apt-get install -y -qq --no-install-recommends"; export DEBIAN_FRONTEND=noninteractive
        timeout "$1" sh -c "apt-get update -qq && $get --download-only $2" >/dev/null && $get --no-download "$2" >/dev/null' sh "$1" "$package"
    fuzzes
}
