#!/usr/bin/env bash
# Installs what the tests of CI want besides the Rattle toolchain, where it can be had: Debian's packages,
# as root. Debian's own Python then runs the tests of the Python package. Where its networkx is
# older than the first whose backends are a setting, a later one is unpacked into out/libraries, for
# these tests alone.
#
# Where something can't be had a line says so, and the tests that want it are skipped, and counted
# as that. The status is always 0.
set -u
top=$(cd "$(dirname "$0")/.." && pwd)
libraries=$top/out/libraries
packages=(python3 python3-pip python3-numpy python3-matplotlib python3-networkx python3-tqdm
  python3-distributed python3-hypothesis python3-pandas python3-scipy mypy
  gcc g++ libc6-dev pkg-config cmake binutils man-db zsh
  fish chromium lintian debootstrap)
later='import sys, networkx; sys.exit([*map(int, networkx.__version__.split(".")[:2])] < [3, 3])'

is_there() {
  [ "$(dpkg-query -W -f '${db:Status-Status}' "$1" 2>/dev/null)" = installed ]
}

missing=()
for package in "${packages[@]}"; do is_there "$package" || missing+=("$package"); done
install() {
  DEBIAN_FRONTEND=noninteractive apt-get -qq -y --no-install-recommends install "$@" >/dev/null 2>&1
}

if [ ${#missing[@]} -gt 0 ]; then
  if [ "$(id -u)" -eq 0 ] && apt-get -qq update >/dev/null 2>&1; then
    # (one that this Debian doesn't have would keep the others away)
    install "${missing[@]}" || for package in "${missing[@]}"; do install "$package"; done
  fi
  for package in "${missing[@]}"; do
    if is_there "$package"; then
      echo "libraries: $package is installed now"
    else
      echo "libraries: $package can't be had here; tests that want it are skipped"
    fi
  done
fi

has_backends() {
  PYTHONPATH=$libraries/usr/lib/python3/dist-packages /usr/bin/python3 -c "$later" 2>/dev/null
}

if ! has_backends; then
  rm -rf "$libraries"
  if "$top/scripts/debian.sh" forky "$libraries" python3-networkx 2>/dev/null && has_backends; then
    # (the links among its pages are none that `rt ci` takes in a checkout)
    rm -rf "$libraries/usr/share"
    echo "libraries: a later python3-networkx is unpacked in out/libraries"
  else
    rm -rf "$libraries"
    echo "libraries: a networkx with backends can't be had here; tests that want it are skipped"
  fi
fi
exit 0
