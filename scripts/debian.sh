#!/usr/bin/env bash
# Unpacks packages of another release of Debian into a folder; nothing is installed, and the
# machine's own lists of packages stay as they are.
#
# Usage: debian.sh SUITE FOLDER PACKAGE.. The status is 0, or 1 where they can't be had.
set -u
suite=$1 folder=$2
shift 2
site=$(apt-get indextargets --format '$(ORIGIN) $(LABEL) $(REPO_URI)' 2>/dev/null |
  sed -n 's/^Debian Debian //p' | head -n 1)
[ -n "$site" ] || exit 1
room=$(mktemp -d)
trap 'rm -rf "$room"' EXIT
mkdir -p "$room/lists/partial" "$room/archives/partial" "$folder"
keys=/usr/share/keyrings/debian-archive-keyring.gpg
if [ -e "$keys" ]; then trust="[signed-by=$keys]"; else trust=; fi
printf 'deb %s %s %s main\n' "$trust" "$site" "$suite" >"$room/sources.list"
: >"$room/status"
chmod -R a+rX "$room"
apt() {
  apt-get -qq -o Dir::Etc::sourcelist="$room/sources.list" -o Dir::Etc::sourceparts=- \
    -o Dir::State::lists="$room/lists" -o Dir::State::status="$room/status" \
    -o Dir::Cache::archives="$room/archives" -o Dir::Cache::pkgcache= \
    -o Dir::Cache::srcpkgcache= -o APT::Sandbox::User=root -o Acquire::Retries=2 \
    -o Acquire::http::Timeout=20 -o Acquire::Languages=none "$@"
}
apt update >&2 || exit 1
cd "$room/archives" && apt download "$@" >&2 || exit 1
cd - >/dev/null || exit 1
for package in "$room"/archives/*.deb; do
  dpkg-deb -x "$package" "$folder" || exit 1
done
