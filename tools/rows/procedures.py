"""The procedures by their tables: of a frame's words, what it does next, what its inlet does, what it is computed from, what
an answer was computed for, and what it stores of one. Of no code of the crates."""
import othello

NOWHERE = 128
MOST = (1 << 64) - 1


class Fan:
    name = "Fan"
    table = {
        (0, 0): ("Spawn", [1, 0], 4), (0, 1): ("Spawn", [2, 0], 4), (0, 2): ("Spawn", [1, 0], 4), (0, 3): ("Wait",),
        (0, 4): ("Spawn", [1, 0], 4), (0, 5): ("Wait",), (1, 0): ("Compute",), (2, 0): ("Spawn", [1, 0], 4), (2, 1): ("Wait",),
    }

    def next(self, sight):
        kind, count = word(sight[0], 0), word(sight[0], 1)
        then = self.table.get((kind, count))
        return ([(1, count + 1)], then) if then else ([], ("Return",))

    def inlet(self, own, child):
        if word(own, 0) == 0:
            return [(2, (word(own, 2) + 1) & MOST)], True, False
        return [], False, False

    def input(self, own):
        return word(own, 0)

    def asked(self, answer):
        return answer[0]

    def accept(self, own, answer):
        return [(1, 2), (2, answer[1])]

    def answer(self, random, asked):
        return asked, random.randrange(10)


class Numbered:
    """A procedure whose answers ask for themselves."""

    def input(self, own):
        return word(own, 0)

    def asked(self, answer):
        return answer[0]

    def accept(self, own, answer):
        return []

    def answer(self, random, asked):
        return (asked,)


class Chain(Numbered):
    name = "Chain"

    def next(self, sight):
        count, stage = word(sight[0], 0), word(sight[0], 1)
        if count == 0 or stage > 1:
            return [], ("Return",)
        return [(1, stage + 1)], ("Spawn", [count - 1, 0], 20) if stage == 0 else ("Wait",)

    def inlet(self, own, child):
        return [(2, word(child, 0))], False, False


class Spin(Numbered):
    name = "Spin"

    def next(self, sight):
        return [], ("Go",)

    def inlet(self, own, child):
        return [], False, False


class Reader(Numbered):
    name = "Reader"

    def next(self, sight):
        acts, below = word(sight[0], 0), word(sight[0], 1)
        digit, rest = acts % 8, [(0, acts // 8)]
        return {
            0: ([], ("Return",)), 1: (rest, ("Go",)), 2: (rest, ("Grow", 16)), 3: (rest, ("Spawn", [below, 0], 4)),
            4: (rest, ("Wait",)), 5: (rest, ("Compute",)), 6: ([(NOWHERE, acts)], ("Go",)), 7: ([], ("Go",)),
        }[digit]

    def inlet(self, own, child):
        kind = word(own, 3)
        return [(NOWHERE if kind == 3 else 2, word(child, 2))], kind == 1, kind == 2

    def accept(self, own, answer):
        return [(2, answer[0])]


# the words of a frame of Jamboree, by their places; the entries of its choices stand behind them
OWN, OPP, DEPTH, ALPHA, BETA, ROLE, NUMBER, PHASE, BEST, CHOICE, COUNT, SPAWNED = range(12)
ENTRIES = 12
NEW, COMPUTING, FIRST, TESTS, DONE = range(5)  # phases
ROOT, FIRST_CHILD, TEST, AGAIN = range(4)  # roles
RUNS, SETTLED, FAILED, RUNS_AGAIN = range(1, 5)  # how a choice stands that was spawned
LOW, HIGH, EXACT = 1, 2, 3  # kinds of bounds
NO_CHOICE = 65
ZERO = 1000000  # the word of score 0
LEAST, GREATEST = ZERO - 200000, ZERO + 200000


class Jamboree:
    """By the table of a frame's words. A child of a depth up to the grain is computed. Where a leaf's score lies outside its
    window nothing says which choice comes with it, so no list looks at such a frame."""
    name = "Jamboree"

    def __init__(self, grain=0):
        self.grain = grain

    @staticmethod
    def window(words):
        return words[ALPHA] - ZERO, words[BETA] - ZERO

    @staticmethod
    def choices(words):
        return othello.choices(othello.board_of(words[OWN], words[OPP]), "X")

    def board(self, sight):
        """The words of the board of a new frame."""
        words = sight[0]
        if words[ROLE] == ROOT:
            return words[OWN], words[OPP]
        above = othello.board_of(sight[1][OWN], sight[1][OPP])
        board = othello.after(above, "X", othello.choices(above, "X")[words[NUMBER]])
        return othello.bits(board, "O")

    def depth_below(self, words, number):
        return words[DEPTH] - othello.plies(self.choices(words)[number])

    def next(self, sight):
        return {NEW: self.begin, COMPUTING: lambda sight: ([], ("Compute",)), FIRST: self.first, TESTS: self.tests,
                DONE: lambda sight: ([], ("Return",))}[sight[0][PHASE]](sight)

    def begin(self, sight):
        own, opp = self.board(sight)
        count = len(othello.choices(othello.board_of(own, opp), "X"))
        least = 0 if sight[0][ROLE] == ROOT else self.grain
        if sight[0][DEPTH] <= least or count == 0:
            return [(OWN, own), (OPP, opp), (PHASE, COMPUTING)], ("Compute",)
        stores = [(OWN, own), (OPP, opp), (PHASE, FIRST), (BEST, LEAST), (CHOICE, NO_CHOICE), (COUNT, count), (SPAWNED, 0)]
        return stores, ("Grow", count)

    def child(self, words, number, alpha, beta, role):
        """A child's first words, by its window seen from its parent."""
        return ("Spawn", [0, 0, self.depth_below(words, number), ZERO - beta, ZERO - alpha, role, number, NEW], ENTRIES)

    def first(self, sight):
        words = sight[0]
        if words[SPAWNED] > 0:
            return [], ("Wait",)
        alpha, beta = self.window(words)
        return [(SPAWNED, 1), (ENTRIES, with_status(words[ENTRIES], RUNS))], self.child(words, 0, alpha, beta, FIRST_CHILD)

    def tests(self, sight):
        words = sight[0]
        alpha, beta = self.window(words)
        alpha = max(alpha, words[BEST] - ZERO)
        count = words[COUNT]
        statuses = [word % 8 for word in words[ENTRIES:ENTRIES + count]]
        for number in range(count):
            if statuses[number] == FAILED and all(status == SETTLED for status in statuses[:number]):
                stores = [(ENTRIES + number, with_status(words[ENTRIES + number], RUNS_AGAIN))]
                return stores, self.child(words, number, alpha, beta, AGAIN)
        number = words[SPAWNED]
        if number < count:
            stores = [(SPAWNED, number + 1), (ENTRIES + number, with_status(words[ENTRIES + number], RUNS))]
            return stores, self.child(words, number, alpha, alpha + 1, TEST)
        if all(status == SETTLED for status in statuses):
            return [(PHASE, DONE)], ("Return",)
        return [], ("Wait",)

    def inlet(self, own, child):
        score = ZERO - child[BEST]
        number, role = child[NUMBER], child[ROLE]
        tried = ZERO - child[BETA]
        alpha, beta = self.window(own)
        best = own[BEST] - ZERO
        low = max(alpha, best)
        upper = ZERO - child[ALPHA]
        kind = LOW if score <= tried else HIGH if score >= upper else EXACT
        code = self.choices(own)[number]
        entry = lambda status: (ENTRIES + number, status + 8 * kind + 32 * (score + ZERO))
        if score >= beta:
            return [(BEST, score + ZERO), (CHOICE, code), entry(SETTLED), (PHASE, DONE)], True, True
        if role in (FIRST_CHILD, AGAIN):
            chosen = [(CHOICE, code)] if score > low else []
            return [(BEST, max(best, score) + ZERO)] + chosen + [entry(SETTLED), (PHASE, TESTS)], False, True
        if score <= tried:
            return [(BEST, max(best, score) + ZERO), entry(SETTLED)], False, True
        return [entry(FAILED)], False, True

    def input(self, own):
        alpha, beta = self.window(own)
        return own[OWN], own[OPP], own[DEPTH], alpha, beta

    def asked(self, answer):
        return answer

    def accept(self, own, answer):
        own, opp, depth, alpha, beta = answer
        board = othello.board_of(own, opp)
        score = othello.search(board, "X", depth, alpha, beta, othello.rank)[0]
        within = alpha < score < beta and depth > 0
        choice = othello.minimax(board, "X", depth)[1] if within else None
        return [(BEST, score + ZERO), (CHOICE, NO_CHOICE if choice is None else choice), (PHASE, DONE)]

    def answer(self, random, asked):
        return asked

    @staticmethod
    def root(board, player, depth):
        own, opp = othello.bits(board, player)
        return ENTRIES, own, opp, depth, LEAST, GREATEST, ROOT, 0, NEW


def word(words, place):
    return words[place] if place < len(words) else 0


def with_status(entry, status):
    return entry - entry % 8 + status
