# Completes the words of tools/ix, tools/pin and tools/mls in Bash: source tools/completion/ix.bash
# The tools know themselves what may stand where: TOOL --complete WORD.. prints it, a kind of operand in capitals.
# shellcheck shell=bash
_ix_words() {
  local word=${COMP_WORDS[COMP_CWORD]} before=() at choice
  for ((at = 1; at < COMP_CWORD; at++)); do
    [ "${COMP_WORDS[at]}" = = ] || before+=("${COMP_WORDS[at]}")
  done
  [ "$word" != = ] || word=
  COMPREPLY=()
  while read -r choice; do
    case $choice in
    COUNT | LABEL | RANGE) ;;
    [A-Z]*) mapfile -t -O "${#COMPREPLY[@]}" COMPREPLY < <(compgen -f -- "$word") ;;
    "$word"*) COMPREPLY+=("$choice") ;;
    esac
  done < <("${1/#\~/$HOME}" --complete "${before[@]}" 2>/dev/null)
}
complete -o filenames -F _ix_words ix pin
complete -W '--levels --form --back --names --help --version' mls
