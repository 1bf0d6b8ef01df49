# Completions of `svid` for bash.

# lists:begin completion (written by tools/lists from lists/svid.toml)
_svid() {
  local current=${COMP_WORDS[COMP_CWORD]} before=${COMP_WORDS[COMP_CWORD - 1]}
  local commands='check id report merge summary answer candidates refusals help'
  local options='' values='' files='' word n
  COMPREPLY=()
  # (bash takes the `=` after an option for a word of its own)
  if [ "$current" = = ]; then
    current=''
  elif [ "$before" = = ]; then
    before=${COMP_WORDS[COMP_CWORD - 2]}
  fi
  case $COMP_CWORD,${COMP_WORDS[1]} in
    1,-*) options='-h --help -V --version' ;;
    1,* | 2,help) COMPREPLY=($(compgen -W "$commands" -- "$current")) ;;
    *,check) options='--bundles --trust-domain --table --now --validator-id --record --out --longest --explain -h --help' ;;
    *,id) options='--explain -h --help' ;;
    *,report) options='--now --explain -h --help' files=yes ;;
    *,merge) options='--now --explain -h --help' files=yes ;;
    *,summary) options='--explain -h --help' files=yes ;;
    *,answer) options='--summary --explain -h --help' files=yes ;;
    *,candidates) options='--bundles --trust-domain --explain -h --help' ;;
    *,refusals) options='--json --explain -h --help' ;;
  esac
  # After `--` there are no options, and each option stands once, but for those that may be repeated.
  for ((n = 2; n < COMP_CWORD; n++)); do
    case ${COMP_WORDS[n]} in
      --)
        options='' before=''
        break
        ;;
      --record) continue ;;
    esac
    options=" $options "
    options=${options/" ${COMP_WORDS[n]} "/ }
  done
  case $before in
    --bundles | --table | --record | --out | --summary) options='' files=yes ;;
    --trust-domain | --now | --validator-id | --longest) options='' files='' ;;
  esac
  # What may be a file is one, unless it begins as an option does.
  if [ -n "$values" ]; then
    COMPREPLY=($(compgen -W "$values" -- "$current"))
  elif [ -n "$files" ] && ! [[ $options == *-* && $current == -* ]]; then
    compopt -o filenames 2>/dev/null
    while IFS= read -r word; do COMPREPLY+=("$word"); done < <(compgen -f -- "$current")
  elif [[ $options == *-* ]]; then
    COMPREPLY=($(compgen -W "$options" -- "$current"))
  fi
}

complete -F _svid svid
# lists:end
