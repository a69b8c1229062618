#!/usr/bin/env bash
# The Debian package in a fresh Debian: installed, served, removed.
#
# It serves as its own user. ROOT, if it is given, is the fresh system (a folder made by `debootstrap
# --variant=minbase bookworm ROOT`), and is left as it is found. It wants root, and debootstrap with a
# mirror if no ROOT is given.
# Usage: scripts/docs package RELAYD [ROOT]
set -uo pipefail
[ -x "${1:-}" ] || { echo 'Usage: scripts/docs package RELAYD [ROOT]' >&2; exit 2; }
program=$(realpath "$1")
given=${2:+$(realpath "$2")}
cd "$(dirname "$0")/../../.."

for needed in dpkg-deb curl python3 $([ -n "$given" ] || echo debootstrap); do
  command -v "$needed" > /dev/null || { echo "docs package: there is no $needed (apt-get install dpkg curl python3 debootstrap)"; exit 1; }
done
[ "$(id -u)" = 0 ] || { echo 'docs package: it wants root, for a chroot'; exit 1; }

folder=$(mktemp -d)
root=${given:-$folder/root}
relay=
trap '[ -z "$relay" ] || kill -9 "$relay" 2> /dev/null; umount "$root/proc" 2> /dev/null; rm -f "$root/relayd.deb"; rm -rf "$folder"' EXIT
trap 'exit 1' INT TERM
passed=0
failed=0

# Whether what was found is what is wanted.
is() {
  if [ "$2" = "$3" ]; then
    passed=$((passed + 1))
  else
    failed=$((failed + 1))
    printf 'FAILED %s\n  wanted: %s\n  found:  %s\n' "$1" "$3" "$2"
  fi
}

inside() {
  env -i PATH=/usr/sbin:/usr/bin:/sbin:/bin chroot "$@"
}

# The files of the package that an operator looks for.
check_files() {
  local file
  for file in usr/bin/relayd usr/share/man/man1/relayd.1.gz usr/lib/systemd/system/relayd.service usr/share/doc/relayd/OPERATIONS.md \
    usr/share/doc/relayd/examples/nginx.conf usr/share/doc/relayd/examples/nginx-egress.conf usr/share/relayd/backup usr/share/relayd/purge etc/default/relayd; do
    is "$file is there" "$(test -f "$root/$file" && echo there)" there
  done
  is 'what is installed is as the package has it' "$(inside "$root" dpkg -V relayd)" ''
  for file in share/relayd/relayd-metrics share/relayd/status.html share/doc/relayd/examples/relayd-alerts.yml lib/systemd/system/relayd-metrics.service \
    lib/systemd/system/relayd-purge.service lib/systemd/system/relayd-purge.timer lib/systemd/system/relayd-backup.service \
    lib/systemd/system/relayd-backup.timer share/doc/relayd/examples/prometheus.yml; do
    is "usr/$file is there" "$(test -f "$root/usr/$file" && echo there)" there
  done
  is 'the user' "$(inside "$root" getent passwd relayd | cut -d: -f6,7)" '/var/lib/relayd:/usr/sbin/nologin'
  if command -v systemd-analyze > /dev/null; then
    for file in relayd.service relayd-metrics.service relayd-purge.service relayd-purge.timer relayd-backup.service relayd-backup.timer; do
      sed "s|=/usr/|=$root/usr/|" "$root/usr/lib/systemd/system/$file" > "$folder/$file"
      is "the unit $file is one" "$(systemd-analyze verify --man=no "$folder/$file" 2>&1 | grep relayd)" ''
    done
  fi
}

# A relay of the package, as its user, on a store of its own; it is killed, and its store is looked at.
check_serving() {
  local port=18399 put='{"url":"http://127.0.0.1:9/hook","max":7,"secrets":["whsec_MDEyMzQ1Njc4OTAxMjM0NTY3ODkwMTIz"]}'
  local url=http://127.0.0.1:$port/v1/endpoints/shop
  install -d -m 700 "$root/var/lib/relayd"
  inside "$root" chown relayd:relayd /var/lib/relayd
  env -i PATH=/usr/sbin:/usr/bin:/sbin:/bin chroot --userspec=relayd:relayd "$root" /usr/bin/relayd serve /var/lib/relayd/relay.db "127.0.0.1:$port" > "$folder/told" 2> "$folder/news" &
  relay=$!
  for _ in $(seq 300); do
    grep -qs '^listening on' "$folder/told" && break
    kill -0 "$relay" 2> /dev/null || break
    sleep 0.1
  done
  is 'it listens' "$(cat "$folder/told")" "listening on 127.0.0.1:$port"
  is 'an endpoint is put' "$(curl -s -m 30 -X PUT "$url" -d "$put")" '{"seq":0}'
  is 'an event is taken' "$(curl -s -m 30 "$url/events" -H 'webhook-id: order-1' -d '{}')" '{"id":"order-1","seq":1}'
  kill -9 "$relay"
  wait "$relay" 2> /dev/null
  relay=
  is 'it is in the store' "$(inside --userspec=relayd:relayd "$root" relayd check /var/lib/relayd/relay.db | grep -o 'endpoints 1 pending 1')" 'endpoints 1 pending 1'
}

if [ -z "$given" ]; then
  echo "debootstrap makes a fresh Debian in $root"
  debootstrap --variant=minbase bookworm "$root" > "$folder/log" 2>&1 || { tail -n 3 "$folder/log"; echo 'docs package: debootstrap failed'; exit 1; }
fi
mount -t proc proc "$root/proc" || exit 1
packaging/make-deb "$program" "$folder/relayd.deb" > "$folder/log" || { echo 'docs package: no package was made'; exit 1; }
cp "$folder/relayd.deb" "$root/relayd.deb"
is 'dpkg installs it' "$(inside "$root" dpkg -i /relayd.deb > "$folder/log" 2>&1 && echo installed || tail -n 3 "$folder/log")" installed
is 'its version' "$(inside "$root" relayd --version)" "$("$program" --version)"
check_files
check_serving
is 'dpkg installs it over itself' "$(inside "$root" dpkg -i /relayd.deb > "$folder/log" 2>&1 && echo installed || tail -n 3 "$folder/log")" installed
is 'the store stays' "$(inside "$root" relayd check /var/lib/relayd/relay.db | cut -d' ' -f1)" ok
is 'dpkg removes it' "$(inside "$root" dpkg -P relayd > "$folder/log" 2>&1 && echo removed || tail -n 3 "$folder/log")" removed
is 'the program is gone' "$(test -e "$root/usr/bin/relayd" || echo gone)" gone
is 'the store is not' "$(ls "$root/var/lib/relayd" | head -n 1)" relay.db
if [ -n "$given" ]; then
  rm -rf "$root/var/lib/relayd"
  inside "$root" userdel relayd
fi
echo "$passed passed, $failed failed"
[ "$failed" -eq 0 ]
