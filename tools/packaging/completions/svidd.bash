# Completions of `svidd` for bash.

# lists:begin completion (written by tools/lists from lists/svidd.toml)
_svidd() {
  local current=${COMP_WORDS[COMP_CWORD]} before=${COMP_WORDS[COMP_CWORD - 1]}
  local commands='serve verify withdraw report reload ready check-state schema dev mint version help'
  local options='' values='' files='' word n
  COMPREPLY=()
  # (bash takes the `=` after an option for a word of its own)
  if [ "$current" = = ]; then
    current=''
  elif [ "$before" = = ]; then
    before=${COMP_WORDS[COMP_CWORD - 2]}
  fi
  case $COMP_CWORD,${COMP_WORDS[1]} in
    1,* | 2,help) COMPREPLY=($(compgen -W "$commands" -- "$current")) ;;
    *,serve) options='--audience --workload-api --allow --bundle --bundle-id --bundle-ca --bundles --longest --rsa-bits --ahead --replay --caller --listen --envoy --metrics --drain --admin --state --log --log-addresses --store --group-log --nats --group --replicas --nats-ca --nats-cert --nats-key --nats-creds --wait --summaries --config --check-config -h --help' ;;
    *,verify) options='--audience --workload-api --bundle --bundle-id --bundle-ca --bundles --longest --rsa-bits --config -h --help' ;;
    *,withdraw) options='--config --admin --key --exp -h --help' ;;
    *,report) options='--config --admin --json -h --help' ;;
    *,reload) options='--config --admin -h --help' ;;
    *,ready) options='--config --listen -h --help' ;;
    *,check-state) options='--messages -h --help' files=yes ;;
    *,schema) options='--longest --ahead --group --role -h --help' ;;
    *,dev) options='--domain --subject --audience --life --rotate --replay --caller --keys --listen --page --endpoint -h --help' ;;
    *,mint) options='--dev --subject --audience --life --jti --fault --try -h --help' ;;
  esac
  # After `--` there are no options, and each option stands once, but for those that may be repeated.
  for ((n = 2; n < COMP_CWORD; n++)); do
    case ${COMP_WORDS[n]} in
      --)
        options='' before=''
        break
        ;;
      --allow | --audience | --bundle | --bundle-ca | --bundle-id | --group-log | --nats | --store) continue ;;
    esac
    options=" $options "
    options=${options/" ${COMP_WORDS[n]} "/ }
  done
  case $before in
    --audience | --workload-api | --allow | --bundle | --bundle-id | --bundle-ca | --longest | --rsa-bits | --ahead | --caller | --listen | --envoy | --metrics | --drain | --store | --group-log | --nats | --group | --replicas | --wait | --summaries | --key | --exp | --role | --domain | --subject | --life | --rotate | --page | --endpoint | --dev | --jti) options='' files='' ;;
    --bundles | --admin | --state | --nats-ca | --nats-cert | --nats-key | --nats-creds | --config | --keys) options='' files=yes ;;
    --replay) options='' files='' values='once strict bound reuse' ;;
    --log) options='' files='' values='errors decisions all' ;;
    --log-addresses) options='' files='' values='whole network none' ;;
    --fault) options='' files='' values='expired not-yet other-audience bad-signature unknown-key' ;;
  esac
  # What may be a file is one, unless it begins as an option does.
  if [ -n "$values" ]; then
    COMPREPLY=($(compgen -W "$values" -- "$current"))
  elif [ -n "$files" ] && ! [[ $options == *-* && $current == -* ]]; then
    compopt -o filenames 2>/dev/null
    while IFS= read -r word; do COMPREPLY+=("$word"); done < <(compgen -f -- "$current")
  elif [[ $options == *-* ]]; then
    COMPREPLY=($(compgen -W "$options" -- "$current"))
  fi
}

complete -F _svidd svidd
# lists:end
