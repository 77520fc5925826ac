# Completion of nfs3canon for bash. Source it, or copy it to /usr/share/bash-completion/completions/nfs3canon.
_nfs3canon() {
  local word=${COMP_WORDS[COMP_CWORD]} last
  COMPREPLY=()
  if [ "$COMP_CWORD" = 1 ]; then
    mapfile -t COMPREPLY < <(compgen -W 'check show canon same pack help --help --version' -- "$word")
    return
  fi
  case ${COMP_WORDS[1]} in
    check | show) last=2 ;;
    canon | same) last=3 ;;
    pack) last=$COMP_CWORD ;;
    help)
      [ "$COMP_CWORD" != 2 ] || mapfile -t COMPREPLY < <(compgen -W 'check show canon same pack' -- "$word")
      return
      ;;
    *) return ;;
  esac
  [ "$COMP_CWORD" -gt "$last" ] || mapfile -t COMPREPLY < <(compgen -f -- "$word")
}
complete -o filenames -F _nfs3canon nfs3canon

# The tools. What follows is made by dev/completions.
_nfs3_tool() {
  local tool=${1##*/} word=$2 option=$3 given='' words=''
  case "$tool $option" in
    'calls --sort' | 'nfs3-calls --sort')
      words='time latency'
      ;;
    'calls --color' | 'nfs3-calls --color')
      words='auto always never'
      ;;
    'nfs3-compare --mask')
      words='none times stamps machines space ids fsids cookies cookieverfs createverfs owners wcc sillynames raw'
      given=${word%"${word##*,}"}
      ;;
    'nfs3-compare --order')
      words='strict any'
      ;;
    'nfs3-compare --extra')
      words='asking none'
      ;;
    'nfs3-compare --color')
      words='auto always never'
      ;;
    'nfs3-meaning --rule')
      words='read-data read-eof read-past-end read-count-data read-count-asked write-size write-committed write-count-asked write-count-data write-nothing verifier verifier-back not-committed listing name-gone name-there name-object readlink-text link-nlink handle-object same-ctime returns wcc-before set-attributes made-attributes made-type guard entries-size entries-none entry-cookies entry-names entry-fileid mode-bits nsec write-ctime dir-type access-asked fsinfo'
      given=${word%"${word##*,}"}
      ;;
    'nfs3-meaning --color')
      words='auto always never'
      ;;
    'procedures --by' | 'nfs3-procedures --by')
      words='procedure user client path'
      ;;
    'procedures --sort' | 'nfs3-procedures --sort')
      words='procedure calls again replies no-reply call-bytes reply-bytes median p99 most mean sum errors slower'
      ;;
    'procedures --color' | 'nfs3-procedures --color')
      words='auto always never'
      ;;
    'nfs3-report --color')
      words='auto always never'
      ;;
    'verdicts --color' | 'nfs3-verdicts --color')
      words='auto always never'
      ;;
    *) [[ $word != -* ]] || words=$(_nfs3_options "$tool") ;;
  esac
  mapfile -t COMPREPLY < <(compgen -P "$given" -W "$words" -- "${word#"$given"}")
}

_nfs3_options() {
  case $1 in
    calls | nfs3-calls) echo --help --version --errors --no-reply --slow --procedure --path --user --client --who --sort --json --csv --utc --from --to --color --program --port --allow-losses --allow-not-checked ;;
    nfs3-compare) echo --help --version --mask --order --extra --known --known-new --all --brief --html --json --junit --color --program --port --allow-losses --allow-not-checked ;;
    nfs3-cut) echo --help --version --origins --program --port ;;
    nfs3-explain) echo --help --version --port ;;
    from_pcap | nfs3-from-pcap) echo --help --version --port ;;
    nfs3-meaning) echo --help --version --all --rule --notes --explain --known --known-new --junit --html --json --csv --color --program --port --allow-losses --allow-not-checked ;;
    procedures | nfs3-procedures) echo --help --version --beside --by --total --sort --json --csv --html --from --to --width --color --program --port --allow-losses --allow-not-checked ;;
    nfs3-report) echo --help --version --html --color --program --port --allow-losses --allow-not-checked ;;
    verdicts | nfs3-verdicts) echo --help --version --quiet --junit --json --html -j --growing --known --known-new --color --program --port --allow-losses --allow-not-checked ;;
    nfs3-where) echo --help --version --port ;;
  esac
}
complete -o default -F _nfs3_tool calls nfs3-calls nfs3-compare nfs3-cut nfs3-explain from_pcap nfs3-from-pcap nfs3-meaning procedures nfs3-procedures nfs3-report verdicts nfs3-verdicts nfs3-where
