# How C programs over the static library are built and run.
compiler=cc
sanitized='-fsanitize=address,undefined -fno-sanitize-recover=all'

# obtain COMMAND PACKAGE..: installs Debian's packages where the command is missing, also on a machine whose package lists were never fetched
obtain() {
    local command=$1
    shift
    command -v "$command" >/dev/null && return
    { apt-get install -y "$@" || { apt-get update && apt-get install -y "$@"; }; } >/dev/null 2>&1
    command -v "$command" >/dev/null && return
    echo "build: $command is missing, and could not be installed here; it is in Debian's packages $*" >&2
    return 1
}

# library: proves the crate and writes the archive
library() {
    mkdir -p target/bench
    (cd crates/olhovest && rt lib) >target/bench/library.out 2>&1 || { tail -n 20 target/bench/library.out; return 1; }
}

# build PROGRAM SOURCE..: links the sources with the archive; `$flags` go to the compiler too
build() {
    local program=$1
    shift
    "$compiler" -std=c11 -O2 -Wall -Wextra -Werror -I c ${flags:-} -o "$program" "$@" crates/olhovest/out/libolhovest.a
}

# launch PROGRAM WORD..: runs what was built
launch() {
    "$@"
}
