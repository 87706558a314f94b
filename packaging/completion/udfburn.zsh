#compdef udfburn-client udfburn-archive
# Completion of udfburn-client and udfburn-archive in zsh, by python3-argcomplete where that is installed. It is loaded at the first
# line that is completed, and then completes that line too.
(( $+commands[register-python-argcomplete] )) || return 1
autoload -Uz bashcompinit && bashcompinit
eval "$(register-python-argcomplete --no-defaults udfburn-client udfburn-archive)"
_bash_complete -o nospace -F _python_argcomplete
