#!/bin/sh
# Runs the skim tool with these arguments and exits with its status: 0 fine, 1 stalled, refused, cut or failed, 2 bad usage. SKIM names the
# program; if it is not set, that is the installed one for the installed script, and target/bin/skim for the one in the repository. The tool
# writes the status to descriptor 3, here a pipe; 4 is standard output meanwhile.
# The signal of a pipe that nobody reads is ignored, so that the tool meets a failed write and tells it.
above=$(dirname "$(readlink -f "$0")")/..
skim=$above/libexec/kelpladder/skim
[ -x "$skim" ] || skim=$above/target/bin/skim
(exec 4>&1) 2>/dev/null || { echo 'skim: standard output is closed' >&2; exit 1; }
trap '' PIPE
exec 4>&1
status=$("${SKIM:-$skim}" --status "$@" 3>&1 >&4 4>&-)
exit "${status:-1}"
