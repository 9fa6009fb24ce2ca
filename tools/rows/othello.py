"""The rules of Othello, the evaluation and minimax, by lists of cells: slow, and of no code of the crates.

A board is a list of 64 letters from a1 to h8 row by row: 'X', 'O' or '-'.
"""
WEIGHTS = [
    100, -20, 10, 5, 5, 10, -20, 100,
    -20, -50, -2, -2, -2, -2, -50, -20,
    10, -2, -1, -1, -1, -1, -2, 10,
    5, -2, -1, -1, -1, -1, -2, 5,
]
WEIGHTS = WEIGHTS + [WEIGHTS[8 * row + column] for row in (3, 2, 1, 0) for column in range(8)]
OPENING = list("-" * 27 + "OX" + "-" * 6 + "XO" + "-" * 27)
CORNERS = [0, 7, 56, 63]
SQUARES = CORNERS + [square for square in range(64) if square not in CORNERS]
PASS = 64


def other(player):
    return "O" if player == "X" else "X"


def rays():
    """For each square, the squares in each of the eight directions."""
    found = []
    for square in range(64):
        row, column = divmod(square, 8)
        lines = []
        for down in (-1, 0, 1):
            for right in (-1, 0, 1):
                line = [8 * (row + n * down) + column + n * right for n in range(1, 8)
                        if 0 <= row + n * down < 8 and 0 <= column + n * right < 8]
                if (down or right) and len(line) > 1:
                    lines.append(line)
        found.append(lines)
    return found


RAYS = rays()


def flips(board, player, square):
    """The discs that are turned by a disc of the player's on an empty square."""
    turned = []
    if board[square] != "-":
        return turned
    for line in RAYS[square]:
        run = []
        for at in line:
            if board[at] == other(player):
                run.append(at)
                continue
            if board[at] == player:
                turned += run
            break
    return turned


def legal(board, player):
    """The legal squares: corners first, then row by row."""
    return [square for square in SQUARES if flips(board, player, square)]


def choices(board, player):
    """The legal squares, or a pass where only the other player can move; none where the game is over."""
    squares = legal(board, player)
    if squares:
        return squares
    return [PASS] if legal(board, other(player)) else []


def after(board, player, choice):
    """The board after a choice."""
    board = list(board)
    if choice != PASS:
        for at in flips(board, player, choice):
            board[at] = player
        board[choice] = player
    return board


def plies(choice):
    return 0 if choice == PASS else 1


def evaluation(board, player):
    sum_of = {player: 1, other(player): -1, "-": 0}
    weights = sum(WEIGHTS[at] * sum_of[board[at]] for at in range(64))
    return weights + 4 * (len(legal(board, player)) - len(legal(board, other(player))))


def final_value(board, player):
    return 2000 * (board.count(player) - board.count(other(player)))


def static(board, player):
    """The value at depth 0, or of a finished game."""
    return evaluation(board, player) if choices(board, player) else final_value(board, player)


def minimax(board, player, depth):
    """The value, and the first choice that attains it (None at depth 0 and in a finished game)."""
    moves = choices(board, player)
    if depth == 0 or not moves:
        return static(board, player), None
    best = None
    for choice in moves:
        value = -minimax(after(board, player, choice), other(player), depth - plies(choice))[0]
        if best is None or value > best[0]:
            best = (value, choice)
    return best


def rank(choice):
    """Where a choice's class comes: 0 for a corner, 1 for a square of an edge that touches no corner, 2 for any other, and for a pass."""
    if choice in CORNERS:
        return 0
    return 2 if choice == PASS else 2 - (choice % 8 in (2, 3, 4, 5) and choice // 8 in (0, 7) or choice // 8 in (2, 3, 4, 5) and choice % 8 in (0, 7))


def search(board, player, depth, alpha, beta, below=None, key=None):
    """The serial window search: takes the choices in order with window (-beta, -max(alpha, best)) and stops as soon as best >= beta. Its score,
    which may lie outside the window (fail-soft), how many positions it entered, and the first choice that has the score. Below the first position
    the choices are ordered by a key, where one is given, as `rank` in the search of a leaf of at most 2 plies."""
    moves = sorted(choices(board, player), key=key) if key else choices(board, player)
    if depth == 0 or not moves:
        return static(board, player), 1, None
    best, entered, first = -200000, 1, None
    for choice in moves:
        score, more, _ = search(after(board, player, choice), other(player), depth - plies(choice), -beta, -max(alpha, best), below, below)
        entered += more
        if -score > best:
            best, first = -score, choice
        if best >= beta:
            break
    return best, entered, first


def name(choice):
    if choice is None:
        return "-"
    return "pass" if choice == PASS else "abcdefgh"[choice % 8] + str(choice // 8 + 1)


def text(board, player):
    return "".join(board) + " " + player


def bits(board, player):
    """The words of a player's squares and of the other's."""
    return (sum(1 << at for at in range(64) if board[at] == player),
            sum(1 << at for at in range(64) if board[at] == other(player)))


def board_of(own, opp):
    """The board of two words, the mover being X."""
    return ["X" if own >> at & 1 else "O" if opp >> at & 1 else "-" for at in range(64)]


def game(random, turns):
    """A random game after so many turns, or where it ended before: the board and the player to move."""
    board, player = list(OPENING), "X"
    for _ in range(turns):
        moves = choices(board, player)
        if not moves:
            break
        board, player = after(board, player, random.choice(moves)), other(player)
    return board, player
