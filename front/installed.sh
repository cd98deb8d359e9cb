#!/bin/sh
# net_tool as it is installed: runs the program, which stands in lib/net_tool, with the words given, and ends with its
# status. The program ends as soon as this does, by whatever signal. It answers help and --version itself. Where the
# program ended without a word, or a file has no net that it reads, a line on standard error says so. Standard output is
# the program's alone.
set -u
here=$(dirname -- "$(dirname -- "$(readlink -f -- "$0")")")
share=$here/share/net_tool
program=$here/lib/net_tool/net_tool archives=$share/archives python=$share/python
. "$share/front/words.sh"

version() {
    cat "$share/VERSION"
}

hand_to_python "$@"
answer_help "$@"
run_explained "$@"
