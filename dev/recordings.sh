# For the launchers: says which tool reads a recording that the program was given for a capture. `tools` and `joint` are set before: what begins
# the name of a tool, and what joins its words.

# Whether a file begins as pcap or pcapng.
is_recording() {
  [ -f "$1" ] && [ -r "$1" ] || return 1
  case $(od -An -tx1 -N4 <"$1" | tr -d ' \n') in
    d4c3b2a1 | a1b2c3d4 | 4d3cb2a1 | a1b23c4d | 0a0d0d0a) return 0 ;;
    *) return 1 ;;
  esac
} 2>/dev/null

# Finds a recording among the words that should name captures, in a line of a program. `reads` becomes the tool that reads it.
find_recording() {
  recording='' reads=from${joint}pcap captures=1
  case $1-${2-} in
    nfs3canon-check) reads=verdicts ;;
    nfs3canon-show) reads=calls ;;
    nfs3canon-canon) ;;
    nfs3canon-same) reads=compare captures=2 ;;
    nfs3mask-?*) ;;
    *) return 0 ;;
  esac
  [ "$1" = nfs3mask ] || shift
  shift
  for word; do
    if [ "$word" = -- ]; then continue; fi
    if [ "$captures" = 0 ]; then return 0; fi
    if is_recording "$word"; then recording=$word && return 0; fi
    captures=$((captures - 1))
  done
}

# Prints a name as a word of a command line, without control characters.
word_of() {
  case $1 in
    *[!A-Za-z0-9_./-]*) printf '%s' "$1" | tr '[:cntrl:]' '?' | sed "s/'/'\\\\''/g; s/^/'/; s/\$/'/" ;;
    *) printf '%s' "$1" ;;
  esac
}

# Runs a program, whose name is the first word, and after its own line says which tool reads the recording.
tell_of_recording() {
  named=$1 status=0 file=$(word_of "$recording")
  shift
  "$@" || status=$?
  if [ "$status" = 2 ]; then
    case $reads in
      from*) advice="\`$tools$reads $file CAPTURE\` makes a capture of it" ;;
      compare) advice="\`$tools$reads A B\` reads recordings" ;;
      *) advice="\`$tools$reads $file\` reads it" ;;
    esac
    echo "$named: $file is a recording: $advice" >&2
  fi
  exit "$status"
}
