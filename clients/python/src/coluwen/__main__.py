"""`python -m coluwen`: the command `coluwen`."""
from .tools.lines import command

if __name__ == "__main__":
    command()
