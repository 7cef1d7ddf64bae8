"""Transfers, owners, promises and receipts (FORMATS, "Byte formats" and "Transfers")."""
import lms
from lms import number_bytes, sha256
PLAIN_MARK = b'PCT1'
LAST_MARK = b'PCT2'
PROMISE_MARK = b'PCR1'
PLAIN_LENGTH = 116
LAST_LENGTH = 124
PROMISE_LENGTH = 100
OWNER_LENGTH = 64

def owner_bytes(account, public):
    return number_bytes(account, 8) + public

def owner_account(owner):
    return int.from_bytes(owner[:8], 'big')

def transfer_body(tag, coin, parent, owner, last=None):
    fields = tag + number_bytes(coin, 8) + number_bytes(parent, 8) + owner
    return PLAIN_MARK + fields if last is None else LAST_MARK + fields + number_bytes(last, 8)

class Transfer:
    """What the bytes of a body spell, and the signature behind it."""
    def __init__(self, data, length):
        self.body = data[:length]
        self.signature = data[length:]
        self.coin = int.from_bytes(data[36:44], 'big')
        self.parent = int.from_bytes(data[44:52], 'big')
        self.owner = data[52:116]
        self.last = int.from_bytes(data[116:124], 'big') if length == LAST_LENGTH else None

    def signed_by(self, owner):
        return owner is not None and lms.verify(owner[8:], self.body, self.signature)

def read_body(data):
    """A body of any tag with nothing behind it, or None."""
    length = {PLAIN_MARK: PLAIN_LENGTH, LAST_MARK: LAST_LENGTH}.get(data[:4])
    return Transfer(data, length) if len(data) == length else None

def read_transfer(data, tag):
    """Short, BadMark and BadTag are all None here: no answer of the pages tells them apart."""
    length = LAST_LENGTH if data[:4] == LAST_MARK else PLAIN_LENGTH
    if len(data) < length or data[:4] not in (PLAIN_MARK, LAST_MARK) or data[4:36] != tag:
        return None
    return Transfer(data, length)

def spelled_transfer(leaf, tag, coin, block):
    """The transfer that a leaf of a block spells of a coin (FORMATS, "Transfers"); the signature isn't looked at."""
    transfer = read_transfer(leaf, tag)
    if transfer is None or transfer.coin != coin:
        return None
    if transfer.last is not None and transfer.last < block:
        return None
    return transfer

def promise_bytes(tag, coin, parent, signed_transfer, issued, due):
    return (PROMISE_MARK + tag + number_bytes(coin, 8) + number_bytes(parent, 8) + sha256(signed_transfer)
            + number_bytes(issued, 8) + number_bytes(due, 8))

class Promise:
    """What the first 100 bytes of a receipt spell."""
    def __init__(self, data):
        self.tag = data[4:36]
        self.coin = int.from_bytes(data[36:44], 'big')
        self.parent = int.from_bytes(data[44:52], 'big')
        self.digest = data[52:84]
        self.issued = int.from_bytes(data[84:92], 'big')
        self.due = int.from_bytes(data[92:100], 'big')
