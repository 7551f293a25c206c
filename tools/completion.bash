# Completions of bash for maroonclamp and its tools: words of commands, options, workflow files, the definitions and ports of a file, and
# the numbers of processes as tools/peek tells them. To have them: . tools/completion.bash
_maroonclamp_words() { mapfile -t COMPREPLY < <(compgen -W "$1" -- "$word"); }
_maroonclamp_files() {
  mapfile -t COMPREPLY < <(compgen -f -X "!$1" -- "$word"; compgen -d -S / -- "$word")
  compopt -o nospace -o filenames 2>/dev/null
}
_maroonclamp_numbers() {
  local here=${_maroonclamp_tools:-tools}
  [ -d wc.store ] && _maroonclamp_words "$("$here/peek" list 2>/dev/null | cut -d ' ' -f 1)"
}
# The ports of a definition of a file, each with '='.
_maroonclamp_ports() {
  tr '\n' ' ' <"$1" 2>/dev/null | grep -oE "(calcfunction|calcjob|workchain) +$2 *\([^)]*\)" | sed 's/^[^(]*(//; s/)$//' |
    grep -oE '[A-Za-z_][A-Za-z0-9_]*\??:' | sed 's/?*:$/=/'
}
_maroonclamp() {
  local word=${COMP_WORDS[COMP_CWORD]} before=${COMP_WORDS[COMP_CWORD - 1]} name=${COMP_WORDS[0]##*/} command first at operand operands=()
  first=1 command=$name
  if [ "$name" = maroonclamp ]; then
    if [ "$COMP_CWORD" -eq 1 ]; then
      _maroonclamp_words "check dry init submit run list tree show graph pause play kill verify pack drill query expand"
      return
    fi
    command=${COMP_WORDS[1]} first=2
  elif [ "$name" = peek ]; then
    if [ "$COMP_CWORD" -eq 1 ]; then
      _maroonclamp_words "list show tree graph query verify --at"
      return
    fi
    command=${COMP_WORDS[1]} first=2
  fi
  case $before in
    --inputs | --table) _maroonclamp_files '*.json'; return ;;
    --settings | --spec) _maroonclamp_files '*.toml'; return ;;
  esac
  for ((at = first; at < COMP_CWORD; at++)); do
    operand=${COMP_WORDS[at]}
    case $operand in
      --*) ;;
      *) case ${COMP_WORDS[at - 1]} in --inputs | --table | --settings | --spec | --fuel | --turns | --seed) ;; *) operands+=("$operand") ;; esac ;;
    esac
  done
  case $command in
    check) case $word in -*) _maroonclamp_words --settings ;; *) _maroonclamp_files '*.wcf' ;; esac ;;
    dry | submit)
      case $word in
        -*) [ "$command" = dry ] && _maroonclamp_words "--inputs --table --fuel" || _maroonclamp_words "--inputs --settings" ;;
        *)
          case ${#operands[@]} in
            0) _maroonclamp_files '*.wcf' ;;
            1)
              _maroonclamp_words "$(sed -nE 's/^ *(calcfunction|calcjob|workchain) +([A-Za-z_0-9]+).*/\2/p' "${operands[0]}" 2>/dev/null)"
              ;;
            *)
              _maroonclamp_words "$(_maroonclamp_ports "${operands[0]}" "${operands[1]}")"
              compopt -o nospace 2>/dev/null
              ;;
          esac
          ;;
      esac
      ;;
    expand) case $word in -*) _maroonclamp_words --spec ;; *) _maroonclamp_files '*.wcf' ;; esac ;;
    run) _maroonclamp_words "--turns --seed --settings" ;;
    daemon)
      case $COMP_CWORD in
        1) _maroonclamp_words "start stop status serve settle clear" ;;
        *) _maroonclamp_words "--turns --seed --settings" ;;
      esac
      ;;
    table)
      [ "${#operands[@]}" -eq 0 ] && [ -d wc.store ] &&
        _maroonclamp_words "$("${_maroonclamp_tools:-tools}/peek" list 2>/dev/null | cut -d ' ' -f 3 | sort -u)"
      ;;
    tree | show | pause | play | kill | report | stop | history | clean) _maroonclamp_numbers ;;
  esac
}
_maroonclamp_tools=$(cd "${BASH_SOURCE[0]%/*}" 2>/dev/null && pwd)
complete -F _maroonclamp maroonclamp ./maroonclamp ../maroonclamp ../../maroonclamp
for _maroonclamp_tool in check daemon submit pause play kill peek report stop table tree show history clean; do
  complete -F _maroonclamp "tools/$_maroonclamp_tool" "../tools/$_maroonclamp_tool" "../../tools/$_maroonclamp_tool"
done
unset _maroonclamp_tool
