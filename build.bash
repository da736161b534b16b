# What run, follow/install, host/test, bench/run and compare/build share; to be sourced, with `me` set to the name that failures begin with: lines
# that say what is done and when, the Debian packages, the proved archives, and `follow` over the library's.
top=$(cd "$(dirname "${BASH_SOURCE[0]}")" && pwd)
log=$top/target/build.log
began=$SECONDS
export CARGO_TARGET_DIR=${CARGO_TARGET_DIR:-$top/target-rust}
# The crate of Rattle that is the library, and the one that is measured.
library=ffi_export
measured=ffi_bench
# The crates that the workspace uses, with what their builds need.
packages=(librust-bytes-dev librust-libc-dev librust-native-tls-dev librust-postgres-protocol-dev gcc libc6-dev)
mkdir -p "$top/target"

say() { printf '%4d s  %s\n' "$((SECONDS - began))" "$*"; }
die() { [ ! -t 1 ] || printf '\r\033[K'; echo "$me: $*" >&2; exit 1; }
die_with_log() { [ ! -t 1 ] || printf '\r\033[K'; tail -n 15 "$log" >&2; die "$*; the whole log is ${log#"$top/"}"; }

# One line of a terminal, written over.
over=''
show_over() {
    local line
    [ -t 1 ] || return 0
    printf -v line '%4d s  %.*s' "$((SECONDS - began))" "$((${COLUMNS:-80} - 9))" "$1"
    [ "$line" = "$over" ] || printf '\r\033[K%s' "$line"
    over=$line
}
# Runs a command with its output in the log, in a process group of its own. The function makes of each line what is told, or nothing: on a terminal
# one line that is written over, with the seconds so far; else a line each.
running=''
watch() { # what is told at first, function, command
    local shown=$1 show=$2 line part='' status=0 at=$SECONDS lines code told
    shift 2
    exec {lines}< <(exec setsid "$@" 2>&1 < /dev/null)
    running=$!
    while :; do
        if IFS= read -r -t 1 -u "$lines" line; then code=0; else code=$?; fi
        part+=$line
        if [ "$code" = 0 ]; then
            printf '%s\n' "$part" >> "$log"
            told=''
            "$show" "$part"
            part=''
            [ -z "$told" ] || shown=$told
            [ -z "$told" ] || [ -t 1 ] || say "$told"
        elif [ "$code" -le 128 ]; then
            break
        fi
        show_over "$shown .. $((SECONDS - at)) s"
    done
    wait "$running" || status=$?
    running=''
    exec {lines}<&-
    [ ! -t 1 ] || printf '\r\033[K'
    return "$status"
}
# What is still running when the script ends.
beside=''
stop_running() {
    local group
    for group in $running $beside; do kill -- "-$group" 2> /dev/null || true; done
}
quietly() { :; }

missing_packages() {
    local package
    for package in "$@"; do
        dpkg-query -W -f '${db:Status-Status}\n' "$package" 2> /dev/null | grep -qx installed || echo "$package"
    done
}
apt_install() { watch 'installing' quietly env DEBIAN_FRONTEND=noninteractive apt-get install -y --no-install-recommends "$@"; }
# With all of them there, neither root nor a network is needed.
install_packages() { # packages
    local missing at=$SECONDS
    command -v dpkg-query > /dev/null || die "no Debian packages here: this needs $*, as Debian 12 has them"
    mapfile -t missing < <(missing_packages "$@")
    [ "${#missing[@]}" -gt 0 ] || return 0
    [ "$(id -u)" = 0 ] || die "packages are missing; as root: apt-get install --no-install-recommends ${missing[*]}"
    say "installing the packages ${missing[*]}"
    apt_install "${missing[@]}" || { watch 'fetching the lists of packages' quietly apt-get update && apt_install "${missing[@]}"; } ||
        die_with_log "cannot install ${missing[*]}"
    say "packages are installed ($((SECONDS - at)) s)"
}

# A crate of Rattle and all that it uses.
with_used() { # crate
    awk -v crate="$1" -F ': *' 'function add(n,   of, i, k) { if (n in done || !(n in uses)) return; done[n]; print n; k = split(uses[n], of, " ")
        for (i = 1; i <= k; i++) add(of[i]) }
        !/^#/ { split($1, name, " "); uses[name[1]] = $2 } END { add(crate) }' "$top/crates.txt"
}
# Where rt puts what it makes of a crate: an archive, or a program.
archive_of() { echo "$top/crates/$1/out/lib$1.a"; }
program_of() { echo "$top/crates/$1/out/$1"; }
# Whether what was made of a crate is there and no source of it is newer.
up_to_date() { # crate, what was made
    local crates
    [ -f "$2" ] || return 1
    mapfile -t crates < <(with_used "$1")
    [ -z "$(cd "$top/crates" && find ../crates.txt "${crates[@]}" -name out -prune -o -newer "$2" -type f -print -quit)" ]
}
# Lines of rt: it begins with a crate, of which it says first how many jobs the check gets.
begun=0
show_proof() {
    local words='^rt: chose --jobs [0-9]+ for ([a-z0-9_]+)$'
    [[ $1 =~ $words ]] || return 0
    begun=$((begun + 1))
    told="proving ${BASH_REMATCH[1]}, the ${begun}. crate of at most $total"
}
# Proves a crate of Rattle and all that it uses, and writes its archive. What is proved already is not proved again.
prove_archive() { # crate, command that is run beside the proof, whatever it answers
    local crate=$1 total
    shift
    total=$(with_used "$crate" | wc -l)
    begun=0
    if [ $# -gt 0 ]; then
        setsid "$@" > /dev/null 2>&1 < /dev/null &
        beside=$!
    fi
    watch 'proving' show_proof env -C "$top/crates/$crate" rt lib || return
    [ -z "$beside" ] || wait "$beside" || true
    beside=''
}
# The archive of a crate is proved where that is not done yet. One of a folder that RUFFLESQUASH_LIB names is taken as it is.
make_archive() { # crate, what it is called, command as for prove_archive
    local crate=$1 what=$2 archive at=$SECONDS
    archive=$(archive_of "$crate")
    shift 2
    if [ -n "${RUFFLESQUASH_LIB:-}" ] && { [ "$crate" = "$library" ] || [ -f "$RUFFLESQUASH_LIB/lib$crate.a" ]; }; then
        [ -f "$RUFFLESQUASH_LIB/lib$crate.a" ] || die "$RUFFLESQUASH_LIB/lib$crate.a is missing (RUFFLESQUASH_LIB names its folder)"
        say "$what is $RUFFLESQUASH_LIB/lib$crate.a (RUFFLESQUASH_LIB)"
        return
    fi
    if up_to_date "$crate" "$archive"; then
        say "$what is proved already"
        return
    fi
    command -v rt > /dev/null || die "rt is missing: the Rattle toolchain, which proves and builds $what"
    say "proving $what, $(with_used "$crate" | wc -l) crates: some minutes, less where a part is proved already"
    : > "$log"
    # Nothing is to be built over an archive that is stale.
    rm -f "$archive"
    # What is written while the proof runs is newer than the archive.
    touch "$top/target/begun"
    prove_archive "$crate" "$@" || die_with_log "$what is not proved"
    [ -f "$archive" ] || die_with_log "rt made no archive"
    touch -r "$top/target/begun" "$archive"
    say "$what is proved ($((SECONDS - at)) s)"
}
make_library() { make_archive "$library" 'the library' "$@"; } # command as for prove_archive
# A program of Rattle is proved and built where that is not done yet. `rt run` builds it and then runs it, here on no input.
make_program() { # crate
    local program said=$top/target/program.log
    program=$(program_of "$1")
    ! up_to_date "$1" "$program" || return 0
    command -v rt > /dev/null || die "rt is missing: the Rattle toolchain, which proves and builds $1"
    [ -f "$top/crates/$1/src/main.rt" ] || die "there is no program $1 in crates/"
    rm -f "$program"
    touch "$top/target/begun_program"
    (cd "$top/crates/$1" && rt run) > /dev/null 2> "$said" < /dev/null || true
    if ! grep -q "^rt: running out/$1" "$said" || [ ! -f "$program" ]; then
        tail -n 20 "$said" >&2
        die "$1 was not built; the whole log is ${said#"$top/"}"
    fi
    touch -r "$top/target/begun_program" "$program"
}

# Lines of cargo.
show_build() {
    if [ -t 1 ] && [[ $1 =~ ^\ *Compiling\ ([^ ]+) ]]; then told="building follow: ${BASH_REMATCH[1]}"; fi
}
# What follow is built of but for the library: where no archive is, cargo builds no more.
follow_parts=(env -C "$top" RUFFLESQUASH_LIB="$top/target/none" cargo build --release --keep-going -p follow)
make_follow() { # cargo's verb and options
    local at=$SECONDS
    command -v cargo > /dev/null || die "cargo is missing: Rust 1.82 or later"
    say "building follow: some 30 s the first time"
    watch "building follow" show_build env -C "$top" cargo "$@" || die_with_log "follow is not built"
    say "follow is built ($((SECONDS - at)) s)"
}
