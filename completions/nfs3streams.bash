# Completion of nfs3streams for bash. Source it, or copy it to /usr/share/bash-completion/completions/nfs3streams.
_nfs3streams() {
  local word=${COMP_WORDS[COMP_CWORD]}
  COMPREPLY=()
  if [ "${COMP_WORDS[COMP_CWORD - 1]}" = --port ]; then
    mapfile -t COMPREPLY < <(compgen -W '2049 20048 111' -- "$word")
    return
  fi
  compopt -o filenames
  mapfile -t COMPREPLY < <(compgen -f -W '--index --port --help --version' -- "$word")
}
complete -F _nfs3streams nfs3streams
