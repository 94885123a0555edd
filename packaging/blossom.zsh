#compdef blossom
# Completion of blossom for zsh.
_blossom() {
  local -a kinds trials
  # generated: kinds
  kinds=(perfect match bmatch capmatch ffactor tjoin postman path interval oddpath evenpath bottleneck gallai)
  trials=(perfect match bmatch capmatch ffactor tjoin postman path)
  # end
  if ((CURRENT == 2)); then
    compadd solve check trial
    return
  fi
  case $words[2] in
    solve) compadd -- $kinds --brief ;;
    check) ((CURRENT > 3)) || compadd -- $kinds ;;
    trial) ((CURRENT > 3)) || compadd -- $trials ;;
  esac
}
_blossom "$@"
