#!/bin/bash
# Counts the instructions of one unit of each kind of work, for both sides, and prints them as a table; then the
# times. An argument names the figures to count, as a pattern; without one all are. Without REKDEUY_LIB, or with it
# empty, only the plain side is counted.
set -euo pipefail
cd "$(dirname "$0")"

cargo build --release --offline -j1 >&2
program=${CARGO_TARGET_DIR:-target}/release/compare
fewer=2
more=12

sides=(plain)
if [ -n "${REKDEUY_LIB:-}" ]; then
  sides=(proved plain)
fi

# Blocks are copied and cleared by vector instructions. The other way of the C library is one repeated instruction,
# of which the counter counts every byte.
export GLIBC_TUNABLES=glibc.cpu.x86_rep_movsb_threshold=1000000000:glibc.cpu.x86_rep_stosb_threshold=1000000000

declare -A costs

# The instructions of a whole process: side, kind of work, times.
total() {
  local log collected
  log=$(valgrind --tool=callgrind --callgrind-out-file=/dev/null \
    "$program" bench --side "$1" --what "$2" --times "$3" 2>&1) || { echo "$log" >&2; return 1; }
  collected=$(sed -n 's/^==[0-9]*== Collected *: *\([0-9]*\).*/\1/p' <<<"$log")
  if [ -z "$collected" ]; then
    echo "callgrind told no total:" >&2
    echo "$log" >&2
    return 1
  fi
  echo "$collected"
}

# Puts the instructions of one replay into costs: side, kind of work. What a process does besides falls out.
cost() {
  local high low
  if [ -z "${costs[$1/$2]:-}" ]; then
    high=$(total "$1" "$2" "$more")
    low=$(total "$1" "$2" "$fewer")
    costs[$1/$2]=$(((high - low) / (more - fewer)))
  fi
}

if [ "${#sides[@]}" = 2 ]; then
  printf '| instructions of one | proved | plain | ratio |\n|---|---|---|---|\n'
else
  printf 'The proved library is not linked: instructions of the plain side alone.\n\n'
  printf '| instructions of one | plain |\n|---|---|\n'
fi
list=$("$program" bench --list | grep -e "${1:-}")
while IFS=$'\t' read -r name top base units; do
  figures=()
  for side in "${sides[@]}"; do
    cost "$side" "$top"
    below=0
    if [ "$base" != - ]; then
      cost "$side" "$base"
      below=${costs[$side/$base]}
    fi
    figures+=("$(awk -v top="${costs[$side/$top]}" -v base="$below" -v units="$units" \
      'BEGIN { cost = (top - base) / units; printf units == 1 ? "%.0f" : "%.1f", cost }')")
  done
  if [ "${#sides[@]}" = 2 ]; then
    ratio=$(awk -v one="${figures[0]}" -v other="${figures[1]}" 'BEGIN { if (other > 0) printf "%.2f", one / other; else printf "-" }')
    printf '| %s | %s | %s | %s |\n' "$name" "${figures[0]}" "${figures[1]}" "$ratio"
  else
    printf '| %s | %s |\n' "$name" "${figures[0]}"
  fi
done <<<"$list"

printf '\n'
unset GLIBC_TUNABLES
"$program" time
