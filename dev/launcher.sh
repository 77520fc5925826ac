#!/bin/sh
# Installed as each program: prints its version, or its help on standard output, or runs it. Its command lines are proved. None of them asks
# for the version, and help is printed on standard error with the status 4 of a wrong line, which begins with `error:`.
own=$(readlink -f "$0")
name=${own##*/}
home=${own%/*}/../libexec/nfs3canon
program=$home/$name

if [ $# = 1 ] && [ "$1" = --version ]; then
  echo "$name @VERSION@"
  exit
fi

. "$home/writing.sh"
. "$home/recordings.sh"
tools=nfs3- joint=-
asks=
[ "$name ${1-}" != 'nfs3canon help' ] || asks=1
for word; do
  case $word in
    --) break ;;
    -h | --help) asks=1 ;;
  esac
done
find_recording "$name" "$@"
if [ -z "$asks$recording" ] && is_writing "$name" "$@"; then run_writing "$program" "$@"; fi
if [ -z "$asks" ] && [ -n "$recording" ]; then tell_of_recording "$name" "$program" "$@"; fi
[ -n "$asks" ] || exec "$program" "$@"

status=0
text=$("$program" "$@" 2>&1) || status=$?
case $status-$text in
  4-error:*) ;;
  4-*)
    printf '%s\n' "$text" 2>/dev/null && exit
    echo "$name: standard output is closed or full" >&2
    exit 3
    ;;
esac
[ -z "$text" ] || printf '%s\n' "$text" >&2
exit "$status"
