#!/bin/sh
# parts.sh PROGRAM STEPS BASE SIZE
# Makes the images of the parts that stand for a long run, in the current folder, and prints a study's programs with
# their weights: add prices and axes.
set -eu
program=$1 steps=$2 base=$3 size=$4
name=$(basename "$program" .elf)
tomex parts "$program" "$steps" --base "$base" --size "$size" > "$name.csv"
while IFS=, read -r from _ _ weight; do
  case $from in from | total) continue ;; esac
  tomex cut "$program" "$from" "$steps" --base "$base" --size "$size" > "$name-$from.elf"
  printf '[[program]]\nname = "%s"\nfile = "%s"\n' "$name-$from" "$name-$from.elf"
  printf 'base = %s\nsize = %s\nweight = %s\n\n' "$base" "$size" "$weight"
done < "$name.csv"
