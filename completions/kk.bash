# Completions of kk for bash: its commands, and the options of each that aren't given yet. No other word is a file; what stands
# after < and > is.
_kk() {
  local command=${COMP_WORDS[1]} before=${COMP_WORDS[COMP_CWORD - 1]} current=${COMP_WORDS[COMP_CWORD]} options='' word
  COMPREPLY=()
  case $before in
    *'<' | *'>')
      compopt -o default
      return
      ;;
    --?*) return ;;
  esac
  if [ "$COMP_CWORD" = 1 ]; then
    options=' plan pack unpack send relay recv sim '
  else
    case $command in
      unpack) options=' --most ' ;;
      send) options=' --seed --extra --pack ' ;;
      relay) options=' --seed --rate --idle --most ' ;;
      recv) options=' --idle --most --tolerate ' ;;
      sim) options=' --seed ' ;;
    esac
    for word in "${COMP_WORDS[@]:2:COMP_CWORD-2}"; do
      # after -- all are words
      [ "$word" != -- ] || return
      options=${options/ "$word" / }
    done
  fi
  mapfile -t COMPREPLY < <(compgen -W "$options" -- "$current")
}
complete -F _kk kk
