"""Words and lines (FORMATS, "Lines and words", "The lines of a schedule", "The log as text")."""
import re
from calls import Call, CALL_FIELDS
from refusals import BadLine
LARGEST_NUMBER = 18446744073709551615
MOST_BLOCKS_OF_A_SCHEDULE = 3000
MOST_BLOCKS_OF_A_LOG = 4294967295
NUMBER = re.compile('0|[1-9][0-9]{0,19}')
HEX = re.compile('0x[0-9a-f]*')
NAME = re.compile('[a-z][a-z0-9]{0,15}')

def words_of(line):
    return line.decode('latin-1').split(' ')

def bad_if(applies):
    if applies:
        raise BadLine

def read_number(word, largest=LARGEST_NUMBER):
    bad_if(not NUMBER.fullmatch(word))
    number = int(word)
    bad_if(number > largest)
    return number

def read_most(word, largest):
    most = read_number(word, largest)
    bad_if(most == 0)
    return most

def read_hex(word, length=None):
    bad_if(len(word) % 2 == 1 or not HEX.fullmatch(word))
    data = bytes.fromhex(word[2:])
    bad_if(length is not None and len(data) != length)
    return data

def read_name(word):
    bad_if(not NAME.fullmatch(word))
    return word

class HexReader:
    """The words of a log and of a node's run: each key, owner and opening is a hex."""
    def key(self, word):
        return read_hex(word, 56)

    def owner(self, word):
        return read_hex(word, 64)

    def bytes(self, word):
        return read_hex(word)

def read_field(field, word, reader):
    if field == 'key':
        return reader.key(word)
    if field == 'root':
        return read_hex(word, 32)
    if field == 'shown':
        return None if word == '-' else reader.bytes(word)
    if field == 'opening':
        return reader.bytes(word)
    return read_number(word)

def read_call(words, reader):
    """A `fund`, a `tick` or a `call` line."""
    if words[0] == 'fund':
        bad_if(len(words) != 3)
        return Call('fund', read_number(words[1]), amount=read_number(words[2]))
    if words[0] == 'tick':
        bad_if(len(words) != 2)
        return Call('tick', time=read_number(words[1]))
    bad_if(words[0] != 'call' or len(words) < 3 or words[2] not in CALL_FIELDS)
    fields = CALL_FIELDS[words[2]]
    bad_if(len(words) != 3 + len(fields))
    values = {field: read_field(field, word, reader) for field, word in zip(fields, words[3:])}
    return Call(words[2], read_number(words[1]), **values)

# The words behind a command and its node: `last` may be missing.
COMMANDS = {
    'who': (), 'state': ('number',), 'accept': ('bytes',), 'send': ('number', 'owner', 'last'),
    'again': ('number',), 'leave': ('number',), 'reclaim': ('bytes',), 'migrate': (), 'watch': (),
    'guard': ('bytes',), 'release': ('number', 'number'),
    'offer': ('bytes',), 'lay': ('number', 'bytes'), 'seal': (), 'bundle': ('number', 'number'),
    'prove': ('number', 'number'), 'absences': ('number', 'number', 'number'), 'receipt': ('bytes', 'number'),
    'open': (),
}
WALLET_COMMANDS = ('accept', 'send', 'again', 'leave', 'reclaim', 'migrate', 'watch')
WATCHER_COMMANDS = ('guard', 'release', 'watch')
OPERATOR_COMMANDS = ('offer', 'lay', 'seal', 'bundle', 'prove', 'absences')
SCHEDULE_COMMANDS = {
    'wallet': WALLET_COMMANDS + ('open',), 'watcher': WATCHER_COMMANDS + ('open',),
    'operator': OPERATOR_COMMANDS + ('open',),
}
RUN_COMMANDS = {
    'wallet': WALLET_COMMANDS + ('who', 'state'), 'watcher': WATCHER_COMMANDS,
    'operator': OPERATOR_COMMANDS + ('receipt', 'migrate'),
}

def read_arguments(verb, words, reader):
    kinds = COMMANDS[verb]
    fewest = len(kinds) - (1 if 'last' in kinds else 0)
    bad_if(not fewest <= len(words) <= len(kinds))
    readers = {'number': read_number, 'last': read_number, 'bytes': reader.bytes, 'owner': reader.owner}
    return [readers[kind](word) for kind, word in zip(kinds, words)]

def read_run_command(role, line):
    """A command of a node's run: the verb and its arguments."""
    words = words_of(line)
    bad_if(words[0] not in RUN_COMMANDS[role])
    return words[0], read_arguments(words[0], words[1:], HexReader())

def read_types(words):
    """The brackets `[<lms> <ots>]`: 5 and 4 where they are missing."""
    if not words:
        return 5, 4
    bad_if(len(words) != 2 or words[0] not in ('5', '6') or words[1] not in ('3', '4'))
    return int(words[0]), int(words[1])

def read_outcome(words):
    """The outcome in front of these words, as whether it leaves the gate open, and the words behind it.
    PROTOCOL, "Nodes": it is open with `new`, and with `mix` whose first byte is a5.
    """
    bad_if(not words)
    if words[0] in ('old', 'new'):
        return words[0] == 'new', words[1:]
    bad_if(words[0] != 'mix' or len(words) < 3)
    read_number(words[1])
    data = read_hex(words[2])
    bad_if(not data)
    return data[0] == 0xa5, words[3:]
