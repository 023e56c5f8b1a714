#!/usr/bin/env bash
# The independent reader's own tests, the comparison of the library with it, and the C host's programs with their rows
# on the sample captures: the capture at once, as a line that goes on, and whether anyone is close.
set -u
cd "$(dirname "$0")/.." || exit 2
built=$(mktemp -d) && trap 'rm -rf "$built"' EXIT
library=$PWD/target/staticlib
strict="-std=c99 -pedantic -Wall -Wextra -Werror"

for program in gateway_demo live_demo door_demo; do
  cc $strict -O2 -c host/c/$program.c -o "$built/$program.o" || { echo "host: $program.c"; exit 1; }
done
printf '#include "vellanquor.h"\nint main() { return 0; }\n' >"$built/header.cc"
if command -v c++ >/dev/null; then
  c++ -Wall -Wextra -Werror -Ihost/include -fsyntax-only "$built/header.cc" || { echo "host: vellanquor.h in C++"; exit 1; }
fi

[ -f "$library/libvellanquor.a" ] || host/archive.sh || exit 1
export VQ_LIB_DIR=$library
(cd host/rust && cargo test --release --offline --quiet) || { echo "host: cargo test"; exit 1; }

for program in gateway_demo live_demo door_demo; do
  cc "$built/$program.o" "$library/libvellanquor.a" -o "$built/$program" || exit 1
done
cc -std=c11 -Wall -Wextra -Werror -shared -fPIC -o "$built/faults.so" tests/faults.c || exit 1

# expect FILE WHAT: standard input is what the file holds.
expect() { cmp - "$1" || { echo "host: live_demo $2"; false; }; }

# live READS ARGUMENTS: the rows of a line whose reads are cut as faults.c says.
live() { READ=$1 LD_PRELOAD=$built/faults.so "$built/live_demo" "${@:2}"; }

for listing in captures/*.txt; do
  capture=${listing%.txt}.bin
  case $capture in *mmwave*) dialect=mmwave ;; *vital-signs*) dialect=vital-signs ;; *) dialect=sirad ;; esac
  "$built/gateway_demo" "$dialect" "$capture" >"$built/read" || exit 1
  grep -v -e '^point ' -e '^phase ' -e '^record' -e '^a line ' "$built/read" | cmp - "$listing" || { echo "host: gateway_demo on $capture"; exit 1; }
  # A line that goes on has the rows before the place where it waits.
  awk -F '\t' '/^kind/ { print } /^[A-Z]\t/ { row[++rows] = $0; place[rows] = $2 } /^end/ { end = $2 }
    /^a line/ { sub(/.* /, ""); next_place = $0 + 0 }
    END { for (i = 1; i <= rows; i++) if (place[i] < next_place) print row[i]
          printf "waits\t%d\t%d\n", next_place, end - next_place }' "$built/read" >"$built/rows"
  for reads in "" "1*99999" "7*99999" "intr 3 intr*5 300 1*40 intr 64*99999"; do
    live "$reads" "$dialect" <"$capture" | expect "$built/rows" "on $capture in reads of '$reads'" || exit 1
  done
done

# The first point lies at half a millimetre: away from zero by edition 1, also where none is named, to even by edition 2.
for case in "0 63 -63" "1 63 -63" "2 62 -62"; do
  read -r edition x y <<<"$case"
  "$built/gateway_demo" mmwave captures/mmwave-points.bin ${edition#0} >"$built/read" || exit 1
  printf 'point 0\t%d\t%d\t1500\tmm\n' "$x" "$y" >"$built/rows"
  grep -m 1 '^point' "$built/read" | cmp - "$built/rows" || { echo "host: gateway_demo by edition $edition"; exit 1; }
done
if "$built/gateway_demo" mmwave captures/mmwave-points.bin 3 >"$built/read" 2>&1 || ! grep -q '^usage' "$built/read"; then
  echo "host: gateway_demo takes edition 3"
  exit 1
fi

# door STATUS LINE ARGUMENTS: door_demo prints this line, empty for none, and exits so.
door() {
  "$built/door_demo" "${@:3}" >"$built/read" 2>"$built/err"
  local status=$?
  printf '%b' "$2" | cmp - "$built/read" && [ "$status" -eq "$1" ] || { echo "host: door_demo ${*:3}, status $status"; exit 1; }
}

# The first close point within half a metre stands in a packet inside a broken one; the half of a millimetre goes by the edition.
near=captures/mmwave-close.bin
door 0 'close\t328\t2\t-500\t300\t-125\n' 500 $near
door 0 'close\t21\t0\t750\t100\t-100\n' 1000000 $near
door 0 'close\t549\t1\t63\t-63\t63\n' 63 $near 1
door 1 'nobody\n' 62 $near
door 0 'close\t549\t1\t62\t-62\t62\n' 62 $near 2
door 1 'nobody\n' 0 $near 2
door 1 'nobody\n' 1000000 captures/sirad-mix.bin
door 2 'refused\t33\n' 1000001 $near
door 2 'refused\t33\n' 99999999999999999999 $near
door 2 'refused\t32\n' 1000001 $near 3
head -c 1048577 /dev/zero >"$built/long"
door 2 'refused\t3\n' 1000001 "$built/long" 3
for arguments in "500" "5x $near" "-5 $near" "500 $near 1 1" "500 captures/none.bin"; do
  door 2 '' $arguments
  [ -s "$built/err" ] || { echo "host: door_demo says nothing on $arguments"; exit 1; }
done

# The first phases of each P frame, in whole hundredths of a degree; no character lies between two of them.
"$built/gateway_demo" sirad captures/sirad-mix.bin >"$built/read" || exit 1
python3 - >"$built/rows" <<'END'
capture = open("captures/sirad-mix.bin", "rb").read()
for row in open("captures/sirad-mix.txt"):
    kind, place, length = row.split("\t")
    if kind == "P":
        for index, character in enumerate(capture[int(place) + 14:int(place) + int(length) - 2][:4]):
            print(f"phase {index}\t{round(1800 * (character - 144) / 11)}")
END
[ "$(wc -l <"$built/rows")" -ge 8 ] || { echo "host: too few phases in sirad-mix"; exit 1; }
grep '^phase ' "$built/read" | cmp - "$built/rows" || { echo "host: gateway_demo on phases"; exit 1; }

# More frames at once than the first table has rows, and a line longer than a stream.
awk 'BEGIN { for (i = 0; i < 130000; i++) printf "!E0000\r\n " }' >"$built/long"
awk 'BEGIN { print "kind\tplace\tlength"; for (i = 0; i < 130000; i++) printf "E\t%d\t8\n", 9 * i
             printf "waits\t%d\t0\n", 9 * 130000 }' >"$built/rows"
"$built/live_demo" sirad "$built/long" | expect "$built/rows" "on 130,000 frames" || exit 1
# A frame of the greatest size.
{ printf '!RFFFF00000000'; head -c 65535 /dev/zero | tr '\0' Z; printf '\r\n?'; } >"$built/long"
printf 'kind\tplace\tlength\nR\t0\t65551\nwaits\t65552\t0\n' >"$built/rows"
live "1000*99" sirad <"$built/long" | expect "$built/rows" "on the longest frame" || exit 1
# Six packets within one that is given up at its second record's type: one byte brings more rows than the table has.
python3 - >"$built/long" <<'END'
import struct, sys
packet = lambda total, count, body: (bytes([2, 1, 4, 3, 6, 5, 8, 7]) + struct.pack("<8I", 1, total, 3, 4, 5, 0, count, 0) + body).ljust(total, b"\0")
sys.stdout.buffer.write(packet(512, 2, struct.pack("<2I", 10, 6 * 64) + 6 * packet(64, 0, b"") + struct.pack("<I", 1)))
END
awk 'BEGIN { print "kind\tplace\tlength"; for (i = 0; i < 6; i++) printf "M\t%d\t64\n", 48 + 64 * i
             printf "waits\t512\t0\n" }' >"$built/rows"
live "1*999" mmwave <"$built/long" | expect "$built/rows" "on packets within a packet" || exit 1

# A failed read is said behind the rows before it.
if live "8 io" sirad <captures/listing-example.bin >"$built/read" 2>"$built/err" || [ ! -s "$built/err" ]; then
  echo "host: live_demo after a failed read"
  exit 1
fi
printf 'kind\tplace\tlength\nE\t0\t8\n' | expect "$built/read" "before a failed read" || exit 1

# A row is printed as soon as its frame is whole, while the line goes on.
mkfifo "$built/line"
"$built/live_demo" sirad "$built/line" >"$built/read" &
exec 3>"$built/line"
printf '!E0000\r' >&3
sleep 0.3
! grep -q '^E' "$built/read" || { echo "host: live_demo prints a row before its frame is whole"; exit 1; }
printf '\n!E00' >&3
for try in $(seq 100); do grep -q '^E	0	8$' "$built/read" && break; sleep 0.1; done
grep -q '^E	0	8$' "$built/read" || { echo "host: live_demo prints no row while the line goes on"; kill $!; exit 1; }
exec 3>&-
wait $! || { echo "host: live_demo at the end of a line"; exit 1; }
printf 'kind\tplace\tlength\nE\t0\t8\nwaits\t8\t4\n' | expect "$built/read" "at the end of a line" || exit 1
echo "host: the C host's programs agree"
