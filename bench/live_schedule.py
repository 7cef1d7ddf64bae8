"""A schedule that grows: each line is given to a replay by the second opinion, and what that answers says what may
come next. For the generators of bench/agree.
"""
WINDOW, ANSWER_TIME, EXIT_TIME = 604_800, 302_400, 907_200
OPERATOR = 9


class Ended(Exception):
    """The replay ended, or the schedule is long enough."""


class Coin:
    """A coin: its deposit block, who owns it by its good links, and each block that was made with a leaf of it."""

    def __init__(self, number, block, owner):
        self.number, self.block = number, block
        self.links = [(block, owner)]
        self.leaves = {}

    @property
    def tip(self):
        return self.links[-1][0]

    @property
    def owner(self):
        return self.links[-1][1]


class Transfer:
    """What a line signed: the coin, the parent, the new owner, the last block, and who signed."""

    def __init__(self, line, coin, parent, to, last, signer):
        self.line, self.coin, self.parent, self.to, self.last, self.signer = line, coin, parent, to, last, signer


class World:
    """What the lines so far have made, as far as a generator needs it."""

    def __init__(self, second, random, most=60):
        self.replay, self.random, self.most = second.replay(), random, most
        self.lines, self.answers = [], []
        self.clock, self.blocks, self.room = 0, 0, 100
        self.coins, self.exits, self.challenges, self.deadlines = {}, {}, {}, []
        self.wallets, self.watchers, self.rogues, self.accounts, self.down = {}, {}, {}, [], set()
        self.pool, self.sealed, self.trees = {}, None, {}
        self.transfers, self.bundles, self.items, self.proofs = [], [], [], {}
        self.offers, self.leaving, self.leaf_of, self.victims = {}, {}, {}, {}

    # ---- lines

    def __call__(self, line):
        """Adds a line: the words of its answer."""
        if len(self.lines) >= self.most:
            raise Ended
        self.lines.append(line)
        answer = self.replay(line.encode("latin-1"))
        if answer is None:
            raise Ended
        self.answers.append(answer)
        words = answer.split(" ")
        self.see(line.split(" "), words)
        return words

    @property
    def text(self):
        return "".join(f"{line}\n" for line in self.lines).encode("latin-1")

    @property
    def last(self):
        """The number of the last line."""
        return len(self.lines)

    # ---- what they made

    def see(self, line, answer):
        seen = getattr(self, f"see_{answer[0]}", None)
        if seen:
            seen(line, answer)
        if line[0] in ("send", "again", "sign", "bundle", "absences", "prove") and answer[0] != "refused":
            self.items.append(self.last)

    def see_chain(self, line, _):
        self.room = int(line[3])

    def see_wallet(self, line, _):
        self.wallets[line[1]] = int(line[2])
        self.accounts.append(int(line[2]))

    def see_watcher(self, line, _):
        self.watchers[line[1]] = int(line[2])
        self.accounts.append(int(line[2]))

    def see_rogue(self, line, _):
        self.rogues[line[1]] = int(line[2])
        self.leaf_of[line[1]] = 0
        self.accounts.append(int(line[2]))

    def see_ticked(self, line, _):
        self.clock = int(line[1])

    def see_deposited(self, line, answer):
        coin, block = int(answer[1]), int(answer[2])
        names = {account: name for name, account in [*self.rogues.items(), *self.wallets.items()]}
        owner = line[1] if line[0] == "deposit" else names.get(int(line[1]), line[1])
        self.coins[coin] = Coin(coin, block, owner)
        self.blocks = block

    def see_committed(self, line, answer):
        self.blocks = int(answer[1])
        leaves = self.sealed if line[0] == "enter" else {}
        for coin, made in (leaves or {}).items():
            if coin in self.coins:
                self.coins[coin].leaves[self.blocks] = made
                self.follow(self.coins[coin], made)

    def follow(self, coin, made):
        """A leaf that is the coin's next good link."""
        if isinstance(made, Transfer) and (made.parent, made.signer) == (coin.tip, coin.owner):
            coin.links.append((self.blocks, made.to))

    def see_sealed(self, *_):
        self.sealed, self.pool = self.pool, {}

    def see_sent(self, line, answer):
        if line[0] == "send":
            coin = self.coins[int(line[2])]
            last = line[4] if len(line) > 4 else None
            self.transfers.append(Transfer(self.last, coin.number, coin.tip, line[3], last, line[1]))

    def see_signed(self, line, _):
        last = line[6] if len(line) > 6 else None
        self.transfers.append(Transfer(self.last, int(line[3]), int(line[4]), line[5], last, line[1]))

    def see_pooled(self, line, answer):
        self.pool[int(answer[1])] = self.transfer_of(line[1])

    def see_laid(self, line, answer):
        self.pool[int(answer[1])] = self.transfer_of(line[2])

    def transfer_of(self, word):
        return next((it for it in self.transfers if f"#{it.line}" == word), word)

    def see_bundled(self, line, answer):
        self.bundles.append((self.last, int(line[1]), int(answer[1]), line[0]))

    def see_proved(self, line, _):
        self.proofs[int(line[1]), int(line[2])] = self.last

    def see_leaving(self, line, answer):
        self.leaving[line[1]] = int(line[2]), int(answer[1])

    def see_offers(self, line, answer):
        self.offers[line[1]] = answer[2:]

    def see_started(self, line, answer):
        start = int(answer[1]) - EXIT_TIME
        if line[0] == "enter":
            exit = self.leaving.get(line[1], (0, 0))
        else:
            exit = int(line[3]), int(line[4] if line[2] == "start" else line[6])
        self.exits[exit] = start
        self.deadlines += [start + WINDOW, start + EXIT_TIME]

    def see_challenged(self, line, answer):
        self.deadlines.append(int(answer[1]))
        if line[0] == "call":
            self.challenges[int(line[3]), int(line[4]), int(line[5])] = int(answer[1])

    def see_cancelled(self, line, _):
        self.over(line)

    def see_paid(self, line, _):
        self.over(line)

    def see_dropped(self, line, _):
        self.over(line)

    def over(self, line):
        if line[0] == "call":
            self.exits.pop((int(line[3]), int(line[4])), None)

    def see_crashed(self, line, _):
        self.down.add(line[1])

    def see_stopped(self, line, _):
        self.down.add(line[1])

    def see_done(self, line, _):
        self.down.add(line[1])

    def see_opened(self, line, _):
        self.down.discard(line[1])
