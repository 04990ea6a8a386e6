# Read by the scripts of the host with '.': finds or installs what building it needs, makes the archive where it is missing or
# old, and builds and runs x86-64 programs. On an Arm machine the archive is x86-64 all the same: there the programs are
# built by a cross compiler and run under an emulator.
#
# It needs bash with pipefail. Nothing here writes to standard output, which belongs to the programs.

root=$(cd "$(dirname "${BASH_SOURCE[0]}")/.." && pwd)
archive=$root/target/staticlib/libflex.a
triple=x86_64-unknown-linux-gnu
built=$root/target/host/$triple/release # where the built programs are
cc=cc                                   # compiles C for x86-64
emulator=()                             # what runs an x86-64 program here
updated=

say() { echo "host: $*" >&2; }

die() {
    say "$*"
    exit 2
}

as_root() {
    if [ "$(id -u)" = 0 ]; then
        "$@"
    elif command -v sudo >/dev/null; then
        sudo "$@"
    else
        die "not root, and there is no sudo: run this as root: $*"
    fi
}

# quietly COMMAND..: says nothing unless it fails
quietly() {
    local log
    log=$(mktemp)
    if ! "$@" >"$log" 2>&1; then
        cat "$log" >&2
        rm -f "$log"
        die "failed: $*"
    fi
    rm -f "$log"
}

# get_packages PACKAGE..: Debian's packages, after one update of the lists
get_packages() {
    command -v apt-get >/dev/null || die "please install what Debian calls: $*"
    [ "$(id -u)" = 0 ] || command -v sudo >/dev/null || die "not root, and there is no sudo: please install Debian's $*"
    say "installing Debian's $*"
    if [ -z "$updated" ]; then
        quietly as_root apt-get -qq update
        updated=yes
    fi
    quietly as_root env DEBIAN_FRONTEND=noninteractive apt-get -qq -y --no-install-recommends install "$@"
}

# is there a rustc whose std can be linked into an x86-64 program?
has_std() {
    command -v rustc >/dev/null && command -v cargo >/dev/null &&
        compgen -G "$(rustc --print sysroot)/lib/rustlib/$triple/lib/libstd-*.rlib" >/dev/null
}

native_tools() {
    local missing=()
    command -v cargo >/dev/null || missing+=(cargo)
    command -v rustc >/dev/null || missing+=(rustc)
    command -v cc >/dev/null || missing+=(gcc libc6-dev)
    [ ${#missing[@]} -eq 0 ] || get_packages "${missing[@]}"
}

cross_tools() {
    if ! has_std; then
        # Debian's rustc takes Debian's std of the other machine; one from elsewhere in front of it would not.
        PATH=/usr/bin:$PATH
        if ! has_std; then
            if ! dpkg --print-foreign-architectures | grep -qx amd64; then
                as_root dpkg --add-architecture amd64
                updated=
            fi
            get_packages rustc cargo gcc libc6-dev libstd-rust-dev libstd-rust-dev:amd64
        fi
    fi
    command -v x86_64-linux-gnu-gcc >/dev/null || get_packages gcc-x86-64-linux-gnu libc6-dev-amd64-cross
    command -v qemu-x86_64 >/dev/null || get_packages qemu-user
    cc=x86_64-linux-gnu-gcc
    emulator=(qemu-x86_64)
    # An x86-64 C library comes with Debian's std; where that std is not Debian's, the cross compiler has one.
    [ -e /lib64/ld-linux-x86-64.so.2 ] || emulator+=(-L /usr/x86_64-linux-gnu)
    export CARGO_TARGET_X86_64_UNKNOWN_LINUX_GNU_LINKER=$cc
    export CARGO_TARGET_X86_64_UNKNOWN_LINUX_GNU_RUNNER="${emulator[*]}"
}

find_tools() {
    case $(uname -m) in
    x86_64) native_tools ;;
    aarch64) cross_tools ;;
    *) die "libflex.a is for x86-64; this is a $(uname -m)" ;;
    esac
}

# needed CRATE: the crates that it is built on, by crates.txt, and itself last
needed() {
    awk -v top="$1" '
        function visit(name,    i, n, names) {
            if (seen[name]++ || !(name in uses)) return
            n = split(uses[name], names, " ")
            for (i = 1; i <= n; i++) visit(names[i])
            print name
        }
        { sub(/#.*/, "") }
        /:/ { name = $1; sub(/:.*/, "", name); sub(/[^:]*:/, ""); uses[name] = $0 }
        END { visit(top) }' "$root/crates.txt"
}

# progress CRATE..: of what 'rt lib' says, a line for each of these crates when it is proved, and all that it says of one that is not
progress() {
    local line crate name='?' began=0 number=0 said=()
    local -A place=()
    for crate in "$@"; do place[$crate]=$((++number)); done
    while IFS= read -r line; do
        said+=("$line")
        case $line in
        'rt: '*'waiting for '*) echo "$line" >&2 ;;
        'rt: chose --jobs '*' for '*) name=${line##* } began=$SECONDS ;;
        'logic=proved '*)
            echo "[${place[$name]:-?}/$#] $name $((SECONDS - began)) s" >&2
            said=()
            ;;
        esac
    done
    [ ${#said[@]} -eq 0 ] || printf '%s\n' "${said[@]}" >&2
}

# is_old CRATE..: is the archive missing, or older than a source of these crates? What rt itself writes, in out/, is none.
is_old() {
    [ -f "$archive" ] && [ ! "$root/crates.txt" -nt "$archive" ] || return 0
    [ -n "$(cd "$root/crates" && find "$@" -mindepth 1 -regex '[^/]*/\(out\|must-fail\)' -prune -o -newer "$archive" -print -quit)" ]
}

# The archive is made anew when a source is newer than the start of the run that made it; rt proves what has changed since. The crate that
# exports the entries is flex_c; to C and Rust its archive is libflex.a.
make_archive() {
    local crates log=$root/target/log/archive made=$root/crates/flex_c/out/libflex_c.a
    mapfile -t crates < <(needed flex_c)
    is_old "${crates[@]}" || return 0
    command -v rt >/dev/null || die "the Rattle kit's command rt is not on the PATH, and it makes target/staticlib/libflex.a"
    mkdir -p "$root/target/log" "${archive%/*}"
    : >"$log.began"
    say "proving what is not proved yet of the service's ${#crates[@]} crates (all of them: some 10 minutes);"
    say "all that rt says goes to target/log/archive"
    rm -f "$made"
    if ! (cd "$root/crates/flex_c" && rt lib 2>&1) | tee "$log" | progress "${crates[@]}"; then
        die "not proved; target/log/archive has all that rt said"
    fi
    cp "$made" "$archive.new"
    touch -r "$log.began" "$archive.new"
    mv "$archive.new" "$archive"
}

# cargo_do COMMAND ARGUMENT..: cargo on the workspace, with all output below target/ and no network
cargo_do() {
    local command=$1
    shift
    FLEX_LIB_DIR=$root/target/staticlib cargo "$command" --quiet --release --offline --locked --target "$triple" \
        --manifest-path "$root/host/Cargo.toml" --target-dir "$root/target/host" "$@" >&2
}

# build PACKAGE..: these programs, or all
build() {
    local packages=(--workspace) name
    if [ $# -gt 0 ]; then
        packages=()
        for name in "$@"; do packages+=(--package "$name"); done
    fi
    find_tools
    make_archive
    cargo_do build "${packages[@]}" || die "the host programs could not be built"
}

# run PROGRAM ARGUMENT..: one that was built
run() {
    local program=$1
    shift
    "${emulator[@]}" "$built/$program" "$@"
}
