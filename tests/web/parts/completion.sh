#!/bin/bash
# completion.sh WORD...: prints what bash would complete the last of these words to, by deploy/package/completion.bash. Run by
# package.py in bash.
. "$(dirname "$0")/../../../deploy/package/completion.bash"
compopt() { :; }
COMP_WORDS=("$@")
COMP_CWORD=$(($# - 1))
_auction
printf '%s\n' "${COMPREPLY[@]}"
