# What ./ca, ./try, ./rules and ./library share. Each of them sets `me` to its name and `top` to the checkout, and sources this.

# needs_rt: whether rt is installed; if it isn't, says what it is.
needs_rt() {
    command -v rt >/dev/null && return
    cat >&2 <<END
$me: there is no rt, the command of the Rattle kit: it proves and builds the program. README.md names the kit's version.
$me: certificates can be judged without it: python3 checkers/judge.py < CERTIFICATE
END
    return 1
}

# sources_of CRATE: sets `sources` to the folders with the sources of this crate and of all crates that it stands on, by crates.txt.
# A crate of the kit has none here.
sources_of() {
    local name below part waiting=("$1")
    local -A stands_on=() seen=()
    while IFS=: read -r name below; do
        [[ -z $name || $name == \#* ]] || stands_on[${name%% *}]=${below%%\#*}
    done <"$top/crates.txt"
    sources=()
    while [ ${#waiting[@]} -gt 0 ]; do
        name=${waiting[-1]}
        unset 'waiting[-1]'
        [ -z "${seen[$name]-}" ] || continue
        seen[$name]=yes
        for part in src specs proofs; do [ ! -d "$top/crates/$name/$part" ] || sources+=("$top/crates/$name/$part"); done
        waiting+=(${stands_on[$name]-})
    done
}

# is_current CRATE: whether the crate was built, and neither crates.txt nor a source that concerns it has changed since that build
# began.
is_current() {
    local stamp=$top/crates/$1/out/built sources
    sources_of "$1"
    [ -e "$stamp" ] && [ -z "$(find "$top/crates.txt" "${sources[@]}" -newer "$stamp" -print -quit 2>&1)" ]
}

# build CRATE COMMAND..: proves and builds the crate with this command in its folder, shows its progress, calls finish, and
# leaves the file out/built, which is as old as the beginning of this. It runs in a subshell, which always cleans up.
build() (
    stamp=$top/crates/$1/out/built
    begun=$stamp.$$
    mkdir -p "${stamp%/*}" || exit
    trap 'rm -f "$begun" "$begun.log"' EXIT
    : >"$begun" || exit
    cd "$top/crates/$1" || exit
    shift
    set -o pipefail
    if ! "$@" 2>&1 </dev/null | tee "$begun.log" | sed -un "s/^[0-9]* of [0-9]* crates, /$me: &/p" >&2; then
        tail -n 40 "$begun.log" >&2
        exit 1
    fi
    finish && mv "$begun" "$stamp"
)

# What a script still does after the command.
finish() { :; }
