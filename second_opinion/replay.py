"""The forms `replay`, `brief` and `make` (FORMATS, "What is written", "Words of the program")."""
from lms import number_bytes, sha256
from refusals import BadLine, Ended
from streams import read_lines
from verdicts import VERDICTS
from world import World

def run_lines(output, note_answer):
    """Runs all lines, or raises Ended; `note_answer` is told each answer and its line's number."""
    world = World()
    for number, line in read_lines(output):
        try:
            note_answer(number, world.answer(number, line))
        except BadLine:
            raise Ended(3, 'bad line %d' % number)
    return world

def end_of(world):
    """The verdicts and the exhibit; an input without lines has no chain, and so none of either."""
    return (world.tracker.verdicts(), world.tracker.exhibit()) if world.tracker else ([], 'no exhibit')

def replay(output):
    world = run_lines(output, lambda number, answer: output.line('%d %s' % (number, answer)))
    verdicts, exhibit = end_of(world)
    for name, coin, verdict in verdicts:
        output.line('%s %d %s' % (name, coin, verdict))
    output.line(exhibit)
    return 0

def brief(output):
    refused = []
    world = run_lines(output, lambda number, answer: answer.startswith('refused') and refused.append(number))
    verdicts, exhibit = end_of(world)
    kinds = [verdict.split(' ')[0] for _, _, verdict in verdicts]
    chain = world.chain
    counts = [('lines', len(world.mail)), ('accepted', chain.accepted if chain else 0), ('refused', len(refused)),
              ('blocks', len(chain.blocks) if chain else 0), ('coins', len(chain.coins) if chain else 0)]
    counts += [(verdict, kinds.count(verdict)) for verdict in VERDICTS]
    for name, count in counts:
        output.line('%s %d' % (name, count))
    output.line(exhibit)
    return 0

MAKE_START = ('chain 1 9 3000', 'wallet a 11 1', 'wallet b 12 2', 'wallet c 13 3', 'watcher g 14',
              'fund 11 1000000', 'fund 12 1000000', 'fund 13 1000000', 'fund 14 1000000')

def make(output, seed, count):
    for line in MAKE_START:
        output.line(line)
    first = len(MAKE_START) + 1
    for number in range(1, count + 1):
        word = int.from_bytes(sha256(number_bytes(seed, 8) + number_bytes(number, 8))[:8], 'big')
        lines = round_lines(word, number, first)
        for line in lines:
            output.line(line)
        first += len(lines)
    return 0

def round_lines(word, number, first):
    wallet, payee = 'abc'[word % 3], 'abc'[word // 3 % 3]
    coin, left = 1 + word // 9 % 40, 1 + word // 2880 % 100
    bundle = 'bundle %d 0' % coin
    kinds = (
        ('deposit %s 10' % wallet,),
        ('send %s %d %s' % (wallet, coin, payee), 'offer #%d' % first, 'seal', 'enter op 1'),
        (bundle, 'accept %s #%d' % (wallet, first)),
        (bundle, 'guard g #%d' % first),
        ('leave %s %d' % (wallet, coin), 'enter %s 1' % wallet),
        ('watch a', 'enter a 1', 'watch b', 'enter b 1', 'watch c', 'enter c 1', 'watch a', 'watch b', 'watch c',
         'tick %d' % (1000 * number)),
        ('crash %s old' % wallet, 'open %s' % wallet),
        ('call 10 finish %d %d' % (coin, left),),
    )
    return kinds[word // 360 % 8]
