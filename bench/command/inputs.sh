# shellcheck shell=sh disable=SC2034,SC2154,SC2162,SC2164
# The inputs. The sample's vendor image: h 72, V 8192, the header file at 72, its section at 96, the FSP header at 100, the base word at
# 128, the patch table at 172 with four entries from 184 to 200, the region at 4096 with 400 bytes.

printf 'TREAT-01\004\003\002\001\001\000\000\000\050\000\000\000\002\000\030\000\001\000' >"$work/sheet"
printf 'TREAT-01\004\003\002\001\000\000\000\000' >"$work/nothing"
printf '32 368 1\n' >"$work/all"
printf 'identity 54524541542D3031\nrevision 0x01020304\n' >"$work/bound"
all=--owners=$work/all
printf 'what was there before\n' >"$work/old"
: >"$work/empty"
head -c 71 "$vendor" >"$work/71"
sparse "$work/above" 16777217
poked "$vendor" "$work/large" 124 '\000\000\000\001' 128 '\000\000\000\000'
cp "$work/large" "$work/larger"
sparse "$work/large" 16777216
sparse "$work/larger" 16777217
cp "$vendor" "$i/v"
cp "$shipped" "$i/s"
cp "$refused" "$i/r"
