"""The calls of the root contract, and their lines (FORMATS, "The lines of a schedule", "The log as text")."""
from collections import namedtuple

# What follows `call <account>`, the word of the kind and then these fields in order.
CALL_FIELDS = {
    'deposit': ('amount', 'key'),
    'commit': ('root',),
    'start': ('coin', 'exit'),
    'exit': ('coin', 'parent', 'shown', 'exit', 'opening'),
    'after': ('coin', 'exit', 'block', 'opening'),
    'between': ('coin', 'exit', 'block', 'opening'),
    'before': ('coin', 'exit', 'block', 'shown'),
    'respond': ('coin', 'exit', 'challenged', 'block', 'opening'),
    'finish': ('coin', 'exit'),
}
TEXT_FIELDS = ('key', 'root', 'shown', 'opening')
CALL_PARTS = 'kind account amount time key root coin exit parent block challenged shown opening'

class Call(namedtuple('Call', CALL_PARTS, defaults=(0, 0, 0, b'', b'', 0, 0, 0, 0, 0, None, b''))):
    """A call; shown is None for the deposit, which a line spells `-`."""
    def line(self):
        """The call as a line of the log, with each key and each opening a hex."""
        if self.kind == 'fund':
            return 'fund %d %d' % (self.account, self.amount)
        if self.kind == 'tick':
            return 'tick %d' % self.time
        words = ['call', str(self.account), self.kind]
        for field in CALL_FIELDS[self.kind]:
            value = getattr(self, field)
            words.append('-' if value is None else '0x' + value.hex() if field in TEXT_FIELDS else str(value))
        return ' '.join(words)

    def openings(self):
        """The openings of the call, each with its block."""
        found = []
        if self.kind == 'exit':
            found = [(self.parent, self.shown), (self.exit, self.opening)]
        elif self.kind in ('after', 'between', 'respond'):
            found = [(self.block, self.opening)]
        elif self.kind == 'before':
            found = [(self.block, self.shown)]
        return [(block, opening) for block, opening in found if opening is not None]
