# What every command beside it begins with; sourced by them. Afterwards `take_archive` puts the proved archive's path into
# archive:
#   SAMULSTO_ARCHIVE  an archive that is there already (else `rt lib` in crates/elab writes one)
set -eu

die() { printf '%s: %s\n' "$0" "$*" >&2; exit 2; }

root=$(cd "$(dirname "$0")/.." && pwd)
made=$root/target/compare
mkdir -p "$made"
machine=$(uname -m)
command -v cargo >/dev/null || die 'no cargo: install Rust'

take_archive() {
    archive=${SAMULSTO_ARCHIVE:-}
    [ -z "$archive" ] || return 0
    command -v rt >/dev/null || die 'no rt: install the Rattle toolchain and put its bin/ into PATH, or set SAMULSTO_ARCHIVE'
    (cd "$root/crates/elab" && rt lib) >"$made/rt.log" 2>&1 || { tail -5 "$made/rt.log" >&2; die 'the archive is not proved'; }
    archive=$root/crates/elab/out/libelab.a
}
