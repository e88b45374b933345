#!/bin/sh
# Builds the filter by GCC and by clang, runs both, and says each command before it is run.
# Run it in this folder. TOMEX names the program, by default `tomex`.
set -e
tomex=${TOMEX:-tomex}
options="-march=rv32im -mabi=ilp32 -nostdlib -static -Os -s"
sources="../start.s main.c filter.c"

run() { echo "+ $*"; "$@"; }
into() { file=$1; shift; echo "+ $* > $file"; "$@" > "$file"; }

run riscv64-unknown-elf-gcc --version
run riscv64-unknown-elf-gcc $options -Wl,-Ttext-segment=0 -o gcc.elf $sources
run clang --version
run clang --target=riscv32 $options -fuse-ld=lld -Wl,--image-base=0 -o clang.elf $sources

# The program headers say all that tomex reads, so what else there is may go.
run llvm-strip --strip-sections gcc.elf clang.elf

into gcc.txt $tomex run gcc.elf
into clang.txt $tomex run clang.elf
run tail -n 1 gcc.txt clang.txt

# The last record of a times report is the total.
for program in gcc clang; do
    echo "+ $tomex times filter.toml 1 $program | tail -n 1"
    $tomex times filter.toml 1 $program | tail -n 1
done
