#!/usr/bin/env bash
# Whether two releases of the committed tree are the same bytes: twice.sh, which makes the second one in a clone in another folder, from
# nothing, proofs and all, and compares the sums of both. With `proved` the clone is lent the proved module of this tree.
set -euo pipefail
cd "$(dirname "$0")/../.."
other=$(mktemp -d)
trap 'rm -rf "$other"' EXIT
git clone -q . "$other/tree"
if [[ ${1:-} == proved ]]; then
    parts=(libraries commands manual tarballs packages sums)
    mkdir -p "$other/tree/target"
    cp -r target/lib "$other/tree/target"
fi
tools/release "${parts[@]}"
"$other/tree/tools/release" "${parts[@]}"
diff target/release-*/SHA256SUMS "$other"/tree/target/release-*/SHA256SUMS
echo 'twice.sh: both releases have the same bytes'
