"""python -m coluwen.page: the same as the command `coluwen-page`."""
import sys

from .command import command

sys.exit(command())
