# What the tests in shell share; each sets `called`, by which it tells of itself, and sources this file. It is then at the repository's top.
#   room              a folder of its own, which goes with it
#   passed, failed    what it has counted; `finish` says both in its last line, which .ci/run reads
# shellcheck shell=sh
. "$(dirname "$0")/../scripts/lib.sh"
cd "$here" || exit 2
passed=0 failed=0
room=$(mktemp -d) || exit 2
trap 'rm -rf "$room"' EXIT

# counts whether a command holds
count() { # COMMAND..
    if "$@"; then
        passed=$((passed + 1))
    else
        failed=$((failed + 1))
        return 1
    fi
}

# one step, which passes or fails as a whole; what it said is shown where it fails
step() { # WHAT COMMAND..
    what=$1
    shift
    if count "$@" >"$room/said" 2>&1; then
        echo "$called: $what: passed"
    else
        cat "$room/said"
        echo "$called: $what: FAILED"
    fi
}

# what cannot be tried on this machine is said, and not counted
untried() { echo "$called: not tried: $1"; }

# the last line, and the status
finish() {
    echo "$passed passed, $failed failed"
    [ "$failed" -eq 0 ]
}

# a folder that has these tools alone, to be the whole path
tools_alone() { # FOLDER TOOL ..
    mkdir "$1"
    folder=$1
    shift
    for tool in "$@"; do ln -s "$(command -v "$tool")" "$folder/$tool"; done
}

# the second program, what makes it, and a seed for its calls
second=$here/target/second/release/second
cargo_second() { (cd "$here/tests/second" && CARGO_TARGET_DIR="$here/target/second" cargo "$@" --release --offline); }
fresh_seed() { od -An -N4 -tu4 /dev/urandom | tr -d ' '; }
