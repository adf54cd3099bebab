# shellcheck shell=bash
# Completes commands, options, files and folders of collector in bash. Needs nothing beside bash: source it, or put it
# where the package bash-completion looks.

_collector() {
  local word=${COMP_WORDS[COMP_CWORD]} command=${COMP_WORDS[1]} options='' value='' arguments=0 i
  case $command in
    edit | delete) options='--wait' ;;
    new | seal) options='--key --wait' ;;
    scan) options='--dry-run --empty --list --json --wait' ;;
    status) options='--json --full' ;;
    renew) options='--id --key --json --full --wait' ;;
    knowledge) options='--key --bare' ;;
    make | answer) options='--key --bare --wait' ;;
    apply | exchange) options='--list --json --run --key --bare --wait' ;;
    show) options='--json --list --full --key --bare' ;;
    check | why | compare) options='--json --full --key --bare' ;;
    coverage) options='--json --key --bare' ;;
    pack | unpack) options='--key' ;;
  esac
  # What stands before the word: how many arguments, and whether the word is the value of an option. Behind -- and in
  # the command of exchange there are no options.
  for ((i = 2; i < COMP_CWORD; i++)); do
    if [[ -n $value ]]; then value=''
    elif [[ -n $options && ${COMP_WORDS[i]} == -- ]]; then options=''
    elif [[ -n $options && ${COMP_WORDS[i]} == --@(key|wait|run|id) ]]; then value=${COMP_WORDS[i]}
    elif [[ -z $options || ${COMP_WORDS[i]} != -?* ]]; then
      ((++arguments))
      [[ $command != exchange ]] || options=''
    fi
  done
  local what=(-f) # files, with folders
  if ((COMP_CWORD == 1)); then
    what=(-W 'new edit delete scan status renew seal knowledge make apply answer exchange check show why compare
      coverage unpack pack --help --version')
  elif [[ $value == --@(wait|id) ]]; then what=(-W '')
  elif [[ $value == --run || -z $value && $command == exchange && $arguments -eq 1 ]]; then what=(-c)
  elif [[ -z $value && -n $options && $word == -* ]]; then what=(-W "$options --help")
  elif [[ -z $value && $command == @(scan|renew) ]]; then what=(-d)
  elif [[ -z $value && $arguments -eq 0 && $command != @(knowledge|check|show|compare|pack|unpack) ]]; then what=(-d)
  fi
  mapfile -t COMPREPLY < <(compgen "${what[@]}" -- "$word")
  [[ ${what[0]} != -[fd] ]] || compopt -o filenames 2> /dev/null || true
}
complete -F _collector collector
