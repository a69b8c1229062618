"""What the tools of scripts/ run: a folder for each tool, with a file for each of its subcommands, and beside these folders what several of them share.

A test prints what failed, and ends with a line 'N passed, M failed'. Its exit status is 0 if nothing failed, and 2 if it was called with wrong words.
"""
