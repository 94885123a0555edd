# Completion of blossom for bash.
_blossom() {
  local word=${COMP_WORDS[COMP_CWORD]} command=${COMP_WORDS[1]} kinds trials
  # generated: kinds
  kinds='perfect match bmatch capmatch ffactor tjoin postman path interval oddpath evenpath bottleneck gallai'
  trials='perfect match bmatch capmatch ffactor tjoin postman path'
  # end
  if [ "$COMP_CWORD" -eq 1 ]; then
    mapfile -t COMPREPLY < <(compgen -W "solve check trial" -- "$word")
    return
  fi
  case $command in
    solve) mapfile -t COMPREPLY < <(compgen -W "$kinds --brief" -- "$word") ;;
    check) [ "$COMP_CWORD" -gt 2 ] || mapfile -t COMPREPLY < <(compgen -W "$kinds" -- "$word") ;;
    trial) [ "$COMP_CWORD" -gt 2 ] || mapfile -t COMPREPLY < <(compgen -W "$trials" -- "$word") ;;
  esac
}
complete -F _blossom blossom
