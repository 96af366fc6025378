#!/bin/sh
# Sees that the named commands are there, and has Debian's packages bring those that aren't. Usage: tools.sh COMMAND..
set -eu
wanted=
for command in "$@"; do
    command -v "$command" >/dev/null 2>&1 && continue
    case $command in
    *-gcc) wanted="$wanted gcc-$(echo "${command%-gcc}" | tr _ -)" ;;
    qemu-*) wanted="$wanted qemu-user" ;;
    *) echo "tools: $command: no package is known to bring it" >&2; exit 1 ;;
    esac
done
[ -n "$wanted" ] || exit 0
if [ "$(id -u)" -ne 0 ] || ! command -v apt-get >/dev/null 2>&1; then
    echo "tools: these packages are missing:$wanted" >&2
    exit 1
fi
apt-get update -qq
# shellcheck disable=SC2086
DEBIAN_FRONTEND=noninteractive apt-get install -y -qq $wanted >/dev/null
