# Completion of distfuture for bash: commands, the options of each, and as many files as it takes.

_distfuture() {
  local current=${COMP_WORDS[COMP_CWORD]} previous=${COMP_WORDS[COMP_CWORD-1]}
  local commands="strong outdated challenged check explain check-explain repair check-repair health classes steps follow try"
  local command='' files=0 most=2 options='' used=' ' word
  COMPREPLY=()

  local place=1
  while [ "$place" -lt "$COMP_CWORD" ]; do
    word=${COMP_WORDS[place]}
    case $word in
      --limit | --package | --most | --size | --seed)
        used="$used$word "
        # bash takes `--limit=7` for three words, and `a=1` too
        if [ "${COMP_WORDS[place + 1]}" = = ]; then place=$((place + 1)); fi
        place=$((place + 1)) ;;
      =) place=$((place + 1)) ;;
      --) ;;
      --*) used="$used${word%%=*} " ;;
      *) if [ -z "$command" ]; then command=$word; else files=$((files + 1)); fi ;;
    esac
    place=$((place + 1))
  done

  case $previous in --limit | --package | --most | --size | --seed | =) return ;; esac
  case $command in
    strong | outdated | challenged) options="--limit --essential" ;;
    explain) options="--package --limit" ;;
    repair) options="--package --limit --most" ;;
    classes) most=1 ;;
    follow) most=3 ;;
    try) options="--size --seed" most=0 ;;
  esac

  if [ -z "$command" ]; then
    COMPREPLY=($(compgen -W "$commands" -- "$current"))
  elif [[ $current == -* ]]; then
    for word in $options; do
      [[ $used == *" $word "* || $word != "$current"* ]] || COMPREPLY+=("$word")
    done
  elif [ "$files" -lt "$most" ]; then
    compopt -o filenames 2> /dev/null
    local IFS=$'\n'
    COMPREPLY=($(compgen -f -- "$current"))
  fi
}

complete -F _distfuture distfuture
