# What the scripts share; each sets `called`, by which it tells of itself, and sources this file:
#   here        the repository's top
#   kit, tools  the kit, and its compiler, linker and C library
# shellcheck shell=sh
here=$(cd "$(dirname "$0")/.." && pwd -P)

# a wrapper of rt stands beside no kit, and is asked; rt itself is not, as that would cost each command more than its program does
find_kit() {
    kit=$(command -v rt) || { echo "$called: there is no rt on the path" >&2; exit 2; }
    kit=$(dirname "$(dirname "$(readlink -f "$kit")")")
    [ -d "$kit/toolchain" ] || kit=$(dirname "$(rt doc)")
    tools=$kit/toolchain
}

# runs a program under the kit's own C library, or prints the words that do
native() { # exec|echo PROGRAM [WORD ..]
    how=$1
    shift
    "$how" "$tools/lib/ld-linux-x86-64.so.2" --library-path "$tools/lib" "$@"
}

# the crates that a crate is made of, each behind those that it lists, itself last: the order in which rt builds them
parts() { # CRATE
    awk -v name="$1" '
        function visit(crate,    names, n, i) {
            if (crate in seen || !(crate in rests)) return
            seen[crate] = 1
            n = split(rests[crate], names, " ")
            for (i = 1; i <= n; i++) visit(names[i])
            print crate
        }
        { sub(/#.*/, "") }
        /:/ { split($0, side, ":"); sub(/ .*/, "", side[1]); rests[side[1]] = side[2] }
        END { visit(name) }' "$here/crates.txt"
}

# what those crates are built from, named from the top
sources() ( # CRATE
    cd "$here" || exit
    echo crates.txt
    for part in $(parts "$1"); do
        for folder in src specs proofs; do [ ! -d "crates/$part/$folder" ] || echo "crates/$part/$folder"; done
    done
)

# whether a file is missing or older than one of its sources, which are named from the top
stale() ( # FILE SOURCE ..
    cd "$here" || exit
    [ -e "$1" ] || exit 0
    made=$1
    shift
    [ -n "$(find "$@" -newer "$made" -type f | head -n 1)" ]
)

# holds the one lock of all builds, where the machine has locks
alone() {
    command -v flock >/dev/null || return 0
    mkdir -p "$here/target" && exec 9>"$here/target/building" || return 0
    flock -n 9 && return
    echo "$called: another command is building, and this one waits for it" >&2
    flock 9
}

# makes a file by a command where it is stale; two that build at once wait for each other
renew() { # COMMAND FILE SOURCE ..
    make=$1
    shift
    stale "$@" || return 0
    alone
    if stale "$@"; then "$make"; fi
    exec 9>&-
}

# the programs behind the commands, as scripts/command runs them
programs() { sed -n -e 's/^ *run \([a-z_]*\).*/\1/p' -e 's/.*[);] run \([a-z_]*\).*/\1/p' "$here/scripts/command" | sort -u; }

# the commands of `eelbasket`
commands() { "$here/eelbasket" --help | sed -n 's/^    \([a-z-]\{1,\}\) .*/\1/p'; }
