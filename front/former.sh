#!/bin/sh
# A command of before under its own name: it runs the subcommand of net_tool that does the same, and says so.
here=$(dirname -- "$(dirname -- "$(readlink -f -- "$0")")")
python=/usr/bin/python3
[ -x "$python" ] || python=python3
PYTHONPATH=$here/python${PYTHONPATH:+:$PYTHONPATH}
export PYTHONPATH
exec "$python" -c 'import sys; from crystal_nets.commands import main; sys.argv[0] = sys.argv.pop(1); main()' "$0" "$@"
