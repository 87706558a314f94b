# shellcheck shell=bash
# Completion of udfburn-client and udfburn-archive in bash, by python3-argcomplete where that is installed.
if command -v register-python-argcomplete &> /dev/null; then
    eval "$(register-python-argcomplete --no-defaults udfburn-client udfburn-archive)"
fi
