# Completion of vimsyn for bash: commands, the options of each, and names of files.

_vimsyn() {
  local word=${COMP_WORDS[COMP_CWORD]} before=${COMP_WORDS[COMP_CWORD - 1]}
  COMPREPLY=()
  if ((COMP_CWORD == 1)); then
    mapfile -t COMPREPLY < <(compgen -W 'check spans html edit large folds' -- "$word")
    return
  fi
  # bash cuts words at '=', so a value may be a word of its own
  if [[ $word == '=' ]]; then
    before=$before= word=
  elif [[ $before == '=' ]]; then
    before=${COMP_WORDS[COMP_CWORD - 2]}=
  fi
  if [[ $before == --folder= ]]; then
    compopt -o filenames 2>/dev/null
    mapfile -t COMPREPLY < <(compgen -d -- "$word")
    return
  fi
  if [[ $before == --budget= || $before == --close= || $before == --conceal= ]]; then
    return
  fi
  local options='' most=2
  case ${COMP_WORDS[1]} in
    check) options='--assume-fromstart --folder=' most=1 ;;
    spans) options='--assume-fromstart --folder= --budget= --conceal=' ;;
    folds) options='--assume-fromstart --folder= --budget= --close=' ;;
    html) options='--assume-fromstart --folder= --budget= --conceal= --number --no-pre' ;;
    edit) options='--assume-fromstart --folder= --budget= --number --no-pre' ;;
    large) options='--budget=' most=0 ;;
    *) return ;;
  esac
  # options stand before the names, each once at most
  local names=0 ended=0 i given
  options=" $options "
  for ((i = 2; i < COMP_CWORD; i++)); do
    given=${COMP_WORDS[i]}
    if [[ $given == '=' ]]; then
      ((i++))
    elif ((ended)) || [[ $given != -* ]]; then
      names=$((names + 1)) ended=1
    elif [[ $given == -- ]]; then
      ended=1
    else
      options=${options/ $given / } options=${options/ $given= / }
    fi
  done
  if ((!ended)) && [[ $word == -* ]]; then
    mapfile -t COMPREPLY < <(compgen -W "$options" -- "$word")
    [[ ${COMPREPLY[0]-} == *= ]] && compopt -o nospace 2>/dev/null
    return
  fi
  if ((names < most)); then
    compopt -o filenames 2>/dev/null
    mapfile -t COMPREPLY < <(compgen -f -- "$word")
  fi
}

complete -F _vimsyn vimsyn
