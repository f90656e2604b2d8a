#!/bin/sh
# Compares the proved library with binutils, LLVM, gcc and qemu; needs the network if one is missing.
# Arguments go to the program: --seed N
set -eu
cd "$(dirname "$0")/.."

# missing: the packages, in Debian's names, whose program is not there
missing() {
    for pair in riscv64-unknown-elf-objdump:binutils-riscv64-unknown-elf \
        riscv64-unknown-elf-gcc:gcc-riscv64-unknown-elf \
        llvm-mc:llvm qemu-riscv32:qemu-user; do
        command -v "${pair%%:*}" >/dev/null || printf '%s ' "${pair#*:}"
    done
}

wanted=$(missing)
if [ -n "$wanted" ] && [ "$(id -u)" = 0 ] && command -v apt-get >/dev/null; then
    # One that the distribution lacks must not keep back the others.
    apt-get update -q || true
    for package in $wanted; do
        DEBIAN_FRONTEND=noninteractive apt-get install -q -y --no-install-recommends "$package" || true
    done
fi
wanted=$(missing)
[ -z "$wanted" ] || printf 'missing, so not compared with: %s\n' "$wanted"

exec cargo run -q --release -p peers -- "$@"
