#!/usr/bin/env bash
# n: 65,536 slots, so that a set has 1,024 words, and so many blocks of one instruction each: a Jump to the next one, and at last
# a Return of nothing. Prints the sheet in hexadecimal:
#
#     sheets/n.sh BLOCKS
#
# 2031 blocks, from work 0, retained 0: accepted: function 7, blocks 2031, awaits 0, work 16670428, retained 0
# 2032 blocks, from work 0, retained 0: refused: 11 state limit, function 7, work 2032, retained 0
blocks=${1:?how many blocks}

# A record that ends with a number, a little-endian u32 below 65,536: the bytes before it, the number, and what the record is.
record() { printf '%s  %02X %02X 00 00  # %s\n' "$1" $(($2 % 256)) $(($2 / 256)) "$3"; }

record "0E 00 00 01  07 00 00 00  00 00 01 00" "$blocks" "function 7: 65536 slots, $blocks instructions"
echo "02 00 01 01  # no parameters"
yes "04 00 02 01  03 00  # a slot: i32, no type" | head -n 65536
for ((next = 1; next < blocks; next++)); do
    record "06 00 26 00" "$next" "$((next - 1)) Jump to $next"
done
echo "06 00 28 00  FF FF FF FF  # $((blocks - 1)) Return of nothing"
