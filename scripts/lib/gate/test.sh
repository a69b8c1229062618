#!/usr/bin/env bash
# Everything that `make test` runs: the merge gate, and then the tests beside it.
#
# First the merge gate `rt ci` with a table of its times; then, side by side, the tests that need the program that it built, or the compiler's
# refusals. At the end stand the merge gate's time, what failed, and the counts of all: 'N passed, M failed'. Usage: scripts/gate test
set -uo pipefail
cd "$(dirname "$0")/../../.."

at_once=$(nproc)
passed=0
failed=0
steps=0
logs=$(mktemp -d)
told="$logs/told"
touch "$told"
trap 'kill $(jobs -p) 2> /dev/null; rm -rf "$logs"' EXIT

# Runs a step in the background, once fewer than so many others run. One that doesn't end within half an hour has failed.
start() {
  while [ "$(jobs -rp | wc -l)" -ge "$at_once" ]; do
    wait -n
  done
  local log="$logs/$steps"
  echo "$*" > "$log.words"
  {
    timeout -k 10 1800 "$@" > "$log" 2>&1
    echo $? > "$log.status"
  } &
  steps=$((steps + 1))
}

# Adds the counts of a step's last line 'N passed, M failed', and keeps what failed, to be told again at the end.
count() {
  local log=$1 words=$2 status=$3 last before=$failed
  last=$(grep -E '^[0-9]+ passed, [0-9]+ failed' "$log" | tail -n 1)
  if [ -z "$last" ]; then
    failed=$((failed + 1))
    tell "$log" "$words"
    return
  fi
  passed=$((passed + $(echo "$last" | cut -d' ' -f1)))
  failed=$((failed + $(echo "$last" | cut -d' ' -f3)))
  if [ "$status" -ne 0 ] && [ "$(echo "$last" | cut -d' ' -f3)" -eq 0 ]; then
    failed=$((failed + 1))
  fi
  [ "$failed" -eq "$before" ] || tell "$log" "$words"
}

# Keeps the lines of a failed step that say what failed, or its last ones.
tell() {
  echo "failed: $2" >> "$told"
  { grep -E 'FAILED' "$1" || tail -n 6 "$1"; } | tail -n 12 >> "$told"
}

# Without RT_JOBS `rt ci` runs as many crates as its estimate of memory allows, two or three of these.
RT_JOBS=$(scripts/gate jobs)
export RT_JOBS

echo "== scripts/gate times, $RT_JOBS crates at a time"
scripts/gate times 2>&1 | tee "$logs/gate"
count "$logs/gate" "scripts/gate times" "${PIPESTATUS[0]}"

relayd=crates/relayd/out/relayd
driver=crates/driver/out/driver
start scripts/script model
start misuse/run
start scripts/memory calls $relayd $driver
start scripts/serve check $relayd
start scripts/script random $relayd
start scripts/serve kill $relayd 20
start scripts/serve egress $relayd
start scripts/serve hurt $relayd moved
start scripts/docs check $relayd
start scripts/script worked $relayd
start scripts/script commands $relayd
start scripts/script limits $relayd
start scripts/script signatures $relayd
start scripts/store files $relayd $driver
start scripts/store checks $relayd
start scripts/store tables $driver
start scripts/script requests $driver
start scripts/script queue $driver
start scripts/store fail $driver
start scripts/script streams $relayd
start scripts/store stop $relayd $driver 60
wait
for ((step = 0; step < steps; step++)); do
  log="$logs/$step"
  echo "== $(cat "$log.words")"
  cat "$log"
  count "$log" "$(cat "$log.words")" "$(cat "$log.status")"
done

grep -E '^(\| all |The (gate|host|longest chain) took )' "$logs/gate"
cat "$told"
echo "$passed passed, $failed failed"
[ "$failed" -eq 0 ]
