#!/bin/sh
# The command octofix as pip installs it: starts the script beside it, which pip makes for its
# Python. A Ctrl-C waits while Python starts, where it would give a traceback.

block=--block-signal=INT
env "$block" true 2>/dev/null || block=
# (a link to this has no such script beside it)
exec env $block "$(dirname -- "$(readlink -f -- "$0")")/octofix-python" "$@"
