#!/usr/bin/env bash
# Fuzzes the gateway library against the independent reader with clang's libFuzzer.
#   host/fuzz/run.sh SECONDS            the library in target/staticlib, or where VQ_LIB_DIR says
#   host/fuzz/run.sh wrong SECONDS      a subject with one wrong answer instead: the run must find it
# The corpus stays in host/fuzz/target/corpus; an input that shows a difference is kept as host/fuzz/target/crash-*, and
# `host/fuzz/target/fuzz FILE` runs it again.
set -eu
cd "$(dirname "$0")"
features= corpus=target/corpus
if [ "${1:-}" = wrong ]; then features="--features wrong" corpus=target/corpus-wrong; shift; fi
seconds=${1:?usage: run.sh [wrong] SECONDS}
clang=${CXX:-clang++}
[ -n "$features" ] || export VQ_LIB_DIR=${VQ_LIB_DIR:-$PWD/../../target/staticlib}
target=x86_64-unknown-linux-gnu

# The independent reader and the comparison are instrumented: blocks, and the operands of comparisons.
coverage="-Cpasses=sancov-module -Ccodegen-units=1"
for option in level=4 inline-8bit-counters pc-table trace-compares; do
  coverage="$coverage -Cllvm-args=-sanitizer-coverage-$option"
done
RUSTFLAGS=$coverage cargo build --quiet --release --offline --target $target --target-dir target $features
"$clang" -fsanitize=fuzzer target/$target/release/libradar_fuzz.a -lpthread -ldl -lm -o target/fuzz

# The first inputs: captures of each family in each dialect, most of them short.
mkdir -p $corpus
if [ -z "$(ls $corpus)" ]; then
  (cd ../rust && cargo build --quiet --release --offline --bin capture --target-dir ../fuzz/target/seeds)
  dialects=(sirad mmwave vital-signs)
  lengths=(40 130 130 260 500)
  for dialect in 0 1 2; do
    for family in clean noisy cut damaged hostile; do
      for seed in $(seq 1 40); do
        { printf "\\x0$dialect\\xff\\x08\\x30\\x31\\x60\\xa0\\xfe\\x10\\x06\\x0$((seed % 4))\\x00\\x00\\x00\\xf4\\x01\\x00\\x00"
          target/seeds/release/capture ${dialects[dialect]} $family $seed ${lengths[seed % 5]}
        } >$corpus/${dialects[dialect]}-$family-$seed
      done
    done
  done
fi
exec target/fuzz -max_total_time="$seconds" -max_len=618 -dict=words.dict -use_value_profile=1 -print_final_stats=1 \
  -artifact_prefix=target/ $corpus
