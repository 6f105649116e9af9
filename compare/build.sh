# Builds the archive, the program that calls it and the program that judges it; sourced by the commands beside it.
# Afterwards `judged WORDS` runs the judging one with these words.
#
# The archive is x86-64 code. Elsewhere a cross compiler links it and an emulator runs it:
#   SAMULSTO_CC       the compiler (else cc, or x86_64-linux-gnu-gcc)
#   SAMULSTO_RUN      what runs an x86-64 program (else nothing, or qemu-x86_64 from PATH or from rt's toolchain)
# and archive.sh says where the archive comes from.
. "$(dirname "$0")/archive.sh"

flags=''
emulated=''
if [ "$machine" = x86_64 ]; then
    cc=${SAMULSTO_CC:-cc}
    run=${SAMULSTO_RUN:-}
else
    cc=${SAMULSTO_CC:-x86_64-linux-gnu-gcc}
    run=${SAMULSTO_RUN:-$(command -v qemu-x86_64 || true)}
    if [ -z "$run" ] && command -v rt >/dev/null; then
        beside=$(dirname "$(dirname "$(readlink -f "$(command -v rt)")")")/on/$machine/toolchain/bin/qemu-x86_64
        [ -x "$beside" ] && run=$beside
    fi
    [ -n "$run" ] || die "this is $machine and the archive is x86-64 code: install qemu-x86_64 (Debian: qemu-user) or set SAMULSTO_RUN"
    # linked whole, so that no x86-64 C library has to be found; and an emulator is slow at the copying instructions
    # that a processor is quick at
    flags=-static
    emulated='GLIBC_TUNABLES=glibc.cpu.hwcaps=-ERMS,-FSRM'
fi
command -v "$cc" >/dev/null || die "no $cc: install a C compiler for x86-64 (Debian: gcc, or gcc-x86-64-linux-gnu with libc6-dev-amd64-cross) or set SAMULSTO_CC"

take_archive
# shellcheck disable=SC2086
"$cc" -O2 $flags -Wall -Wextra -std=c99 -pedantic -I"$root/include" "$root/compare/harness.c" "$archive" -o "$made/harness"
(cd "$root/oracle" && cargo build --release --offline --quiet -p compare)
judge=$root/oracle/target/release/compare

# The judging program, with the words that run the calling one behind its own.
judged() {
    # shellcheck disable=SC2086
    exec env $emulated "$judge" "$@" $run "$made/harness"
}

# The words of a command: [--only CALL] [COUNT [SEED]], into only, count and seed.
only_of() {
    only=''
    if [ "${1:-}" = --only ]; then
        [ $# -ge 2 ] || die '--only what? elaborate, nested or premise'
        only="--only $2"
        shift 2
    fi
    count=${1:-}
    seed=${2:-}
}
