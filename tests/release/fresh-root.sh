#!/usr/bin/env bash
# Shows the packages in a fresh root, which has Debian's base alone: fresh-root.sh RELEASE [FOLDER], as root. FOLDER is where the root
# is made, or kept by an earlier run; it is removed where it is not named. Debian's archive is asked for the base (debootstrap, minbase)
# and for a C compiler, pkg-config and man; the packages are installed, tried by installed.sh, and removed.
set -euo pipefail
cd "$(dirname "$0")/../.."
release=$(cd "$1" && pwd) root=${2:-}
if [[ -z $root ]]; then
    root=$(mktemp -d)
    trap 'umount "$root/proc" 2>/dev/null || true; rm -rf --one-file-system "$root"' EXIT
fi
architecture=$(dpkg --print-architecture)
[[ -e $root/bin/sh ]] || debootstrap --variant=minbase bookworm "$root" >"$root.log" 2>&1 || { tail -n 20 "$root.log"; exit 1; }
inside() { chroot "$root" env -i PATH=/usr/sbin:/usr/bin:/sbin:/bin HOME=/root LC_ALL=C DEBIAN_FRONTEND=noninteractive "$@"; }
mountpoint -q "$root/proc" || mount -t proc proc "$root/proc"
# the base leaves manual pages out of what it installs, if it was made for containers
rm -f "$root"/etc/dpkg/dpkg.cfg.d/*docker*
rm -rf "$root/try"
mkdir "$root/try"
cp tests/cases/*.edi examples/example.c tests/release/installed.sh "$root/try"
cp "$release"/debian/*_"$architecture".deb "$root/try"

inside sh -c 'cd /try && dpkg -i hverolda_*.deb' >"$root/try/log" 2>&1 || { cat "$root/try/log"; exit 1; }
echo 'with the base alone:'
inside sh /try/installed.sh /try
inside apt-get install -y -qq --no-install-recommends gcc libc6-dev pkg-config man-db >"$root/try/log" 2>&1 || { tail "$root/try/log"; exit 1; }
inside sh -c 'cd /try && dpkg -i lib*.deb' >"$root/try/log" 2>&1 || { cat "$root/try/log"; exit 1; }
echo 'with a C compiler, pkg-config and man:'
inside sh /try/installed.sh /try
inside dpkg --purge hverolda libhverolda-dev libhverolda1 >"$root/try/log" 2>&1 || { cat "$root/try/log"; exit 1; }
left=$(inside find /usr /etc /var/lib/dpkg/info -name '*hverolda*')
[[ -z $left ]] || { echo "fresh-root.sh: the packages left behind: $left" >&2; exit 1; }
echo 'the packages are removed, and nothing of them is left'
