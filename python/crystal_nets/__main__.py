"""`python3 -m crystal_nets SUBCOMMAND ..`: the subcommands of net_tool that are written in Python."""

from .commands import main

if __name__ == "__main__":
    main()
