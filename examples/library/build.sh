#!/bin/sh
# Builds the programs of this folder, with Debian's gcc-riscv64-unknown-elf and picolibc-riscv64-unknown-elf.
# -Wl,-S leaves the symbols, and drops what is only for a debugger.
set -eu
cd "$(dirname "$0")"
for program in words numbers; do
  riscv64-unknown-elf-gcc --specs=picolibc.specs -march=rv32im -mabi=ilp32 -nostartfiles -static -O2 \
    -Wl,-S -Wl,--no-warn-rwx-segments -T window.ld -o $program.elf start.s calls.c $program.c
done
