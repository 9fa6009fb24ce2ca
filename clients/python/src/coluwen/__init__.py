"""Values of Othello positions from a server of `othello serve` or by an engine of this computer, and what Othello's programs share: rules, scores, formats.

    from coluwen import Client, Position
    with Client() as client:
        print(client.analyse(Position.opening(), 6).best)

What is named here, in `coluwen.aio` (the same for asyncio) and in `coluwen.formats` (the formats of the Othello world) is the package's public
part, and changes as CHANGELOG.md promises; any other module is its own matter.
"""
from ._core import Info, Reservation, enough
from .aio import AsyncClient
from .analyst import Analyst, Outcome, Progress, Result, Unfit
from .board import BLACK, PASS, SQUARES, START, WHITE, Board, Move, Position
from .client import Client, connect, tls_context, token_in
from .engine import AsyncEngine, Engine, Fallback
from .errors import FAULTS, Broken, Closed, ColuwenError, FormatError, IllegalMove, Late, Refused, Silent, TooDeep, Unreachable
from .score import Entry, Score
from .session import Cancelled, Done, Live, Pending, Quota, Session, Spent

__version__ = "1.0.0"
__all__ = [
    "BLACK", "FAULTS", "PASS", "SQUARES", "START", "WHITE", "Analyst", "AsyncClient", "AsyncEngine", "Board", "Broken", "Cancelled", "Client",
    "Closed", "ColuwenError", "Done", "Engine", "Entry",
    "Fallback", "FormatError", "IllegalMove", "Info", "Late", "Live", "Move", "Outcome", "Pending", "Position", "Progress", "Quota", "Refused", "Reservation", "Result", "Score",
    "Session", "Silent", "Spent", "TooDeep", "Unfit", "Unreachable", "connect", "enough", "tls_context", "token_in",
]  # fmt: skip
