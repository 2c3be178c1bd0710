# Completion of omosd, omos and the scripts of contrib/ in bash: source it, or let `make install`
# put it into PREFIX/share/bash-completion/completions. The server's paths aren't completed: no
# request lists them.

_omos_files() { # the files that begin with $1, of all kinds
  compopt -o filenames 2> /dev/null
  mapfile -t COMPREPLY < <(compgen -f -- "$1")
}

_omos_words() { # CURRENT WORD..: the words that begin with the current one
  mapfile -t COMPREPLY < <(compgen -W "${*:2}" -- "$1")
}

_omos() {
  local current=${COMP_WORDS[COMP_CWORD]}
  COMPREPLY=()
  case $COMP_CWORD in
    1)
      if [[ $current == -* ]]; then
        _omos_words "$current" --help --version
      else
        _omos_files "$current"
      fi
      ;;
    2) _omos_words "$current" put blueprint link where stats flush ;;
    4)
      case ${COMP_WORDS[2]} in
        put | blueprint | link) _omos_files "$current" ;;
      esac
      ;;
  esac
}

_omosd() {
  local current=${COMP_WORDS[COMP_CWORD]}
  COMPREPLY=()
  case $COMP_CWORD in
    1) _omos_words "$current" once stdio socket workload --help --version ;;
    2) if [[ ${COMP_WORDS[1]} == socket ]]; then _omos_files "$current"; fi ;;
  esac
}

_omos_script() { # omos-run SOCKET PATH, omos-put-dir SOCKET PREFIX FOLDER, omos-explain
  local current=${COMP_WORDS[COMP_CWORD]}
  COMPREPLY=()
  case ${COMP_WORDS[0]##*/}:$COMP_CWORD in
    omos-run:1 | omos-put-dir:1 | omos-explain:*) _omos_files "$current" ;;
    omos-put-dir:3)
      compopt -o filenames 2> /dev/null
      mapfile -t COMPREPLY < <(compgen -d -- "$current")
      ;;
  esac
}

complete -F _omos omos
complete -F _omosd omosd
complete -F _omos_script omos-run omos-put-dir omos-explain
