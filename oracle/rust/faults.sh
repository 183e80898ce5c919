#!/usr/bin/env bash
# Builds the published evaluator with each fault of faults.txt and expects the comparison to tell it apart. The last line is 'N told apart, M not'.
# RUNE_SRC names the folder of the published files, as for the build itself. Run with numbers to try only those faults.
set -u
cd "$(dirname "$0")" || exit 1
export CARGO_TARGET_DIR=target/faults
numbers=${*:-$(sed -n 's/^\([0-9][0-9]*\) .*/\1/p' faults.txt)}
told=0 missed=0
for number in $numbers; do
  JUDGE_FAULT=$number cargo build --quiet --offline -j1 --features popping --bin compare || { echo "$number does not build"; exit 1; }
  seen=
  for how in '--trees 3' '--count 20000'; do
    differ=$(target/faults/debug/compare $how | sed -n 's/^  differ otherwise: //p')
    [ -n "$differ" ] || { echo "$number: the comparison came to no end"; exit 1; }
    if [ "$differ" != 0 ]; then seen=$how; break; fi
  done
  if [ -n "$seen" ]; then told=$((told + 1)); echo "$number told apart by compare $seen"; else missed=$((missed + 1)); echo "$number NOT told apart"; fi
done
echo "$told told apart, $missed not"
[ "$missed" = 0 ]
