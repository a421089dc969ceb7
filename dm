#!/bin/sh
# Runs dm, and first proves and builds it where no build of the present sources stands. The help page needs no build.
set -u
tools=$(dirname "$(readlink -f "$0")")/tools
case "$#:${1:-}" in
1:help | 1:-h | 1:--help) exec "$tools/page" dm ;;
1:--version) exec "$tools/page" dm version ;;
esac
program=$("$tools/built" dm) || exit 2
exec "$program" "$@"
