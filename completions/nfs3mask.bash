# Completion of nfs3mask for bash. Source it, or copy it to /usr/share/bash-completion/completions/nfs3mask.
_nfs3mask() {
  local word=${COMP_WORDS[COMP_CWORD]} class
  local classes='times stamps machines space ids fsids cookies cookieverfs createverfs owners wcc sillynames raw'
  COMPREPLY=()
  if [ "$COMP_CWORD" -le 2 ]; then
    compopt -o filenames
    mapfile -t COMPREPLY < <(compgen -f -W '--help --version' -- "$word")
  elif [ "$word" = = ]; then
    mapfile -t COMPREPLY < <(compgen -W 'keep zero number')
  elif [ "${COMP_WORDS[COMP_CWORD - 1]}" = = ]; then
    mapfile -t COMPREPLY < <(compgen -W 'keep zero number' -- "$word")
  else
    compopt -o nospace
    for class in $classes; do
      [[ $class= != "$word"* ]] || COMPREPLY+=("$class=")
    done
  fi
}
complete -F _nfs3mask nfs3mask
