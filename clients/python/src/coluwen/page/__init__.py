"""The server of the analysis board (`coluwen-page`): the page's files, which need no server for themselves, deeper values, and classes.

`web` is the server of HTTP with its limits, `service` what the page asks, `library` what is known and whose turn it is, `rooms` the
classes, `files` the page's own files and whom they are given to.
"""
from .command import command

__all__ = ["command"]
