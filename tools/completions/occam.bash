# completions of occam for bash; tools/tables.py writes this file
_occam() {
  local now="${COMP_WORDS[COMP_CWORD]}" before="${COMP_WORDS[COMP_CWORD - 1]}"
  COMPREPLY=()
  if [[ "$now" == "=" ]]; then
    before="$before=" now=""
  elif [[ "$before" == "=" ]]; then
    before="${COMP_WORDS[COMP_CWORD - 2]}="
  fi
  case "$before" in
    --errors | --errors=)
      COMPREPLY=($(compgen -W "halt stop" -- "$now"))
      return
      ;;
    --explore=)
      COMPREPLY=($(compgen -W "answers endings full" -- "$now"))
      return
      ;;
    --limit | --limit= | --quantum | --quantum= | --workers | --workers= | --seed | --seed= | --tries | --tries= | --arrows | --arrows= | --last | --last= | --states | --states= | --memory | --memory=)
      return
      ;;
  esac
  if [[ "$now" == -* ]]; then
    COMPREPLY=($(compgen -W "--limit --quantum --errors --workers --seed --tries --choices --record --typed --chart --arrows --last --only --without --trace --trace-to --json --steps --page --watch --live --explain --plain --explore --first --graph --within --states --memory --check --help --version" -- "$now"))
  else
    COMPREPLY=($(compgen -f -- "$now"))
  fi
}
complete -o filenames -F _occam occam
