#!/bin/sh
# net_tool as pip installs it: crystal_nets.commands starts this with the program before the words of a command line that
# begins with no subcommand in Python. It answers help and --version, and else runs the program and ends with its status.
set -u
here=$(CDPATH='' cd -- "$(dirname -- "$0")" && pwd -P)
top=$(dirname -- "$here") # the package, which has the manual page as the repository has it
python=$(dirname -- "$top") archives=$top/archives program=$1
shift
. "$here/words.sh"

version() {
    cat "$here/VERSION"
}

answer_help "$@"
run_explained "$@"
