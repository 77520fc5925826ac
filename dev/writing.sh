# For the launchers: runs a program that writes a file, and removes what it has written so far if a signal ends it.
#
# The program writes beside OUT, under a random name. The file that is removed is the one that its own process has open under such a name to
# write to it, so it is never that of another run, nor an input. If it cannot be known, it stays. A limit on the size of files (`ulimit -f`) is
# a failed write, and not a signal, so that the program itself takes the file away.

# Whether a command line, after the program's name, is of a command that writes a file.
is_writing() {
  case $1-${2-} in
    nfs3canon-canon | nfs3canon-pack | nfs3mask-?* | nfs3streams-?*) return 0 ;;
    *) return 1 ;;
  esac
}

# Runs a command in the background, so that this shell gets the signals, and ends with its status.
run_writing() {
  trap 'end_by INT' INT
  trap 'end_by TERM' TERM
  trap 'end_by HUP' HUP
  exec 3<&0
  # (a terminal signals both)
  (
    trap '' INT HUP XFSZ
    exec "$@"
  ) <&3 3<&- &
  pid=$!
  exec 3<&-
  status=0
  wait "$pid" || status=$?
  exit "$status"
}

# Ends the program, removes its file, and ends by the same signal. The program is stopped first, so that it opens no file meanwhile.
end_by() {
  trap '' INT TERM HUP
  pid=${!:-}
  if [ -n "$pid" ]; then end_program; fi
  trap - "$1"
  kill -s "$1" "$$"
}

end_program() {
  kill -s STOP "$pid" 2>/dev/null || :
  tries=0
  while [ "$tries" -lt 100 ] && ! is_stopped; do
    sleep 0.01
    tries=$((tries + 1))
  done
  part=$(part_of "$pid")
  kill -s KILL "$pid" 2>/dev/null || :
  wait "$pid" 2>/dev/null || :
  [ -z "$part" ] || rm -f -- "$part"
}

is_stopped() {
  state=
  read -r _ _ state _ <"/proc/$pid/stat" || return 0
  [ "$state" = T ] || [ "$state" = Z ]
} 2>/dev/null

# Prints the file of 16 hexadecimal digits that a process has open to write to it.
part_of() {
  for link in "/proc/$1/fd"/*; do
    name=$(readlink "$link" 2>/dev/null) || continue
    is_open_for_writing "$1" "${link##*/}" || continue
    digits=${name##*/.nfs3canon-}
    case $digits in
      "$name" | *[!0-9a-f]*) ;;
      ????????????????) printf '%s' "$name" ;;
    esac
  done
}

# Whether a process may write to a descriptor: the last two bits of its flags, which are octal, are not 0.
is_open_for_writing() {
  while read -r key flags; do
    case $key-$flags in
      flags:-*[1256]) return 0 ;;
    esac
  done <"/proc/$1/fdinfo/$2"
  return 1
} 2>/dev/null
