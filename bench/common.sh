# What the scripts of this folder share; each sources it at the top of the repository.

# Ends with one line where a command is missing: `wants COMMAND WHAT`.
wants() {
    type -P "$1" >/dev/null || {
        echo "$(basename "$0"): $1 is missing: $2" >&2
        exit 1
    }
}

# Builds the program crates/NAME where it is older than its sources, and says so: `built NAME WORD ..` with words that it ends well on.
built() {
    local name=$1 out=crates/$1/out/$1 log
    shift
    if [ -x "$out" ] && [ -z "$(find crates.txt crates/"$name" crates/mig_*/{src,specs,proofs} -name out -prune -o -newer "$out" -type f -print -quit)" ]; then
        return
    fi
    wants rt "install the Rattle kit (rattle-kit-13f) and put its folder bin on the PATH"
    echo "building $name: each crate that changed is proved first, which may take minutes" >&2
    log=$(mktemp)
    (cd "crates/$name" && rt run -- "$@" </dev/null >"$log" 2>&1) || {
        tail -n 5 "$log" >&2
        echo "$(basename "$0"): $name could not be built; 'rt all check' says why" >&2
        rm -f "$log"
        exit 1
    }
    rm -f "$log"
}
