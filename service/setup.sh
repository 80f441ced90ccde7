#!/bin/sh
# Sets up what the service needs beside Python 3.8: Debian's python3-aiohttp (for [http]) and openssl (for make_member). Says what it does.
set -u
lacking=
/usr/bin/python3 -c 'import sys; sys.exit(sys.version_info < (3, 8))' 2>/dev/null || { echo "setup: /usr/bin/python3 of version 3.8 or later isn't there"; lacking="$lacking python3"; }
/usr/bin/python3 -c 'import aiohttp' 2>/dev/null && echo "setup: python3-aiohttp is there" || lacking="$lacking python3-aiohttp"
command -v openssl >/dev/null && echo "setup: openssl is there" || lacking="$lacking openssl"
[ -n "$lacking" ] || exit 0
echo "setup: installs$lacking by apt-get"
[ "$(id -u)" -eq 0 ] || { echo "setup: run this as root, or install$lacking yourself"; exit 1; }
# shellcheck disable=SC2086
apt-get update && apt-get install -y --no-install-recommends $lacking
