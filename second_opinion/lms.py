"""LMS and two-level signatures of RFC 8554, with the pages' four pairs of types (FORMATS, "Byte formats")."""
import hashlib
from functools import cached_property, lru_cache
PAIRS = ((5, 4), (6, 4), (5, 3), (6, 3))
HEIGHTS = {5: 5, 6: 10}
# One-time type: the bits of a digit, the number of strings, the shift of the checksum.
WIDTHS = {3: (4, 67, 4), 4: (8, 34, 0)}
PUBLIC_LENGTH = 56
STEPS = [bytes((step,)) for step in range(256)]
ONE_TIME_PUBLIC = b'\x80\x80'
MESSAGE = b'\x81\x81'
LEAF = b'\x82\x82'
INNER = b'\x83\x83'
RANDOMIZER_INDEX = 0xfffd
BOTTOM_IDENTIFIER_INDEX = 0xfffc
BOTTOM_SEED_INDEX = 0xfffb

def sha256(data):
    return hashlib.sha256(data).digest()

def number_bytes(number, width):
    """A number with its highest byte first (FORMATS, the first lines)."""
    return number.to_bytes(width, 'big')

def derived(identifier, leaf, index, seed):
    """RFC 8554, Appendix A: what is made of a seed. The pages use it with fffb to fffd too."""
    return sha256(identifier + number_bytes(leaf, 4) + number_bytes(index, 2) + b'\xff' + seed)

def run_chain(prefix, value, first, last):
    digest = hashlib.sha256
    for step in range(first, last):
        value = digest(prefix + STEPS[step] + value).digest()
    return value

def digits_of(digest, one_time_type):
    """The digits of a message's digest and of their checksum (RFC 8554, section 4.4)."""
    bits, strings, shift = WIDTHS[one_time_type]
    highest = (1 << bits) - 1
    message_digits = split_digits(digest, bits)
    checksum = sum(highest - digit for digit in message_digits) << shift
    return (message_digits + split_digits(number_bytes(checksum, 2), bits))[:strings]

def split_digits(data, bits):
    if bits == 8:
        return list(data)
    return [digit for byte in data for digit in (byte >> 4, byte & 15)]

def public_types(public):
    """The pair of types in a key's first eight bytes, or None (PROTOCOL, "Numbers")."""
    pair = (int.from_bytes(public[:4], 'big'), int.from_bytes(public[4:8], 'big'))
    return pair if len(public) >= 8 and pair in PAIRS else None

class Key:
    """A private key, whose tree is made at its first use since that takes the time."""
    def __init__(self, identifier, seed, lms_type=5, one_time_type=4):
        self.identifier = identifier
        self.seed = seed
        self.lms_type = lms_type
        self.one_time_type = one_time_type
        self.leaves = 1 << HEIGHTS[lms_type]

    def prefix(self, leaf, index):
        return self.identifier + number_bytes(leaf, 4) + number_bytes(index, 2)

    def leaf_digest(self, leaf):
        bits, strings, _ = WIDTHS[self.one_time_type]
        ends = [run_chain(self.prefix(leaf, index), derived(self.identifier, leaf, index, self.seed),
                          0, (1 << bits) - 1) for index in range(strings)]
        one_time = sha256(self.identifier + number_bytes(leaf, 4) + ONE_TIME_PUBLIC + b''.join(ends))
        return sha256(self.identifier + number_bytes(self.leaves + leaf, 4) + LEAF + one_time)

    @cached_property
    def tree(self):
        nodes = {self.leaves + leaf: self.leaf_digest(leaf) for leaf in range(self.leaves)}
        for node in range(self.leaves - 1, 0, -1):
            nodes[node] = inner_digest(self.identifier, node, nodes[2 * node], nodes[2 * node + 1])
        return nodes

    @property
    def public(self):
        types = number_bytes(self.lms_type, 4) + number_bytes(self.one_time_type, 4)
        return types + self.identifier + self.tree[1]

    @lru_cache(maxsize=5000)
    def sign(self, leaf, message):
        randomizer = derived(self.identifier, leaf, RANDOMIZER_INDEX, self.seed)
        digest = sha256(self.identifier + number_bytes(leaf, 4) + MESSAGE + randomizer + message)
        strings = [run_chain(self.prefix(leaf, index), derived(self.identifier, leaf, index, self.seed), 0, digit)
                   for index, digit in enumerate(digits_of(digest, self.one_time_type))]
        node, siblings = self.leaves + leaf, []
        while node > 1:
            siblings.append(self.tree[node ^ 1])
            node //= 2
        return (number_bytes(leaf, 4) + number_bytes(self.one_time_type, 4) + randomizer + b''.join(strings)
                + number_bytes(self.lms_type, 4) + b''.join(siblings))

def inner_digest(identifier, node, left, right):
    return sha256(identifier + number_bytes(node, 4) + INNER + left + right)

@lru_cache(maxsize=None)
def key_of_seed(seed, lms_type=5, one_time_type=4):
    """FORMATS, "The key of a seed"."""
    return Key(sha256(seed)[:16], seed, lms_type, one_time_type)

@lru_cache(maxsize=None)
def bottom_key(seed, number):
    """Bottom key j of a signer of two levels (FORMATS, "A signer's journals")."""
    top = key_of_seed(seed)
    identifier = derived(top.identifier, number, BOTTOM_IDENTIFIER_INDEX, seed)[:16]
    return Key(identifier, derived(top.identifier, number, BOTTOM_SEED_INDEX, seed))

def signature_length(types):
    strings = WIDTHS[types[1]][1]
    return 4 + 4 + 32 + 32 * strings + 4 + 32 * HEIGHTS[types[0]]

@lru_cache(maxsize=None)
def verify(public, message, signature):
    """Whether this is a signature of the message under the key; a key that doesn't read signed nothing."""
    types = public_types(public) if len(public) == PUBLIC_LENGTH else None
    if types is None or len(signature) != signature_length(types):
        return False
    lms_type, one_time_type = types
    bits, strings, _ = WIDTHS[one_time_type]
    leaf = int.from_bytes(signature[:4], 'big')
    path_at = 40 + 32 * strings
    if signature[4:8] != public[4:8] or signature[path_at:path_at + 4] != public[:4]:
        return False
    if leaf >= 1 << HEIGHTS[lms_type]:
        return False
    identifier = public[8:24]
    one_time = one_time_candidate(identifier, leaf, message, signature, one_time_type)
    node = (1 << HEIGHTS[lms_type]) + leaf
    value = sha256(identifier + number_bytes(node, 4) + LEAF + one_time)
    for at in range(path_at + 4, len(signature), 32):
        sibling = signature[at:at + 32]
        left, right = (sibling, value) if node & 1 else (value, sibling)
        node //= 2
        value = inner_digest(identifier, node, left, right)
    return value == public[24:]

def one_time_candidate(identifier, leaf, message, signature, one_time_type):
    """RFC 8554, Algorithm 4b: the one-time key that the signature's chains end in."""
    bits = WIDTHS[one_time_type][0]
    leaf_bytes = number_bytes(leaf, 4)
    digest = sha256(identifier + leaf_bytes + MESSAGE + signature[8:40] + message)
    ends = []
    for index, digit in enumerate(digits_of(digest, one_time_type)):
        string = signature[40 + 32 * index:72 + 32 * index]
        ends.append(run_chain(identifier + leaf_bytes + number_bytes(index, 2), string, digit, (1 << bits) - 1))
    return sha256(identifier + leaf_bytes + ONE_TIME_PUBLIC + b''.join(ends))

def two_level_signature(seed, number, leaf, message):
    """FORMATS, the rows "of two levels"; RFC 8554, section 6."""
    bottom = bottom_key(seed, number)
    top_signature = key_of_seed(seed).sign(number, bottom.public)
    return number_bytes(1, 4) + top_signature + bottom.public + bottom.sign(leaf, message)

def two_level_verify(public, message, signature):
    if len(public) != 4 + PUBLIC_LENGTH or public[:4] != number_bytes(2, 4):
        return False
    types = public_types(public[4:])
    if types is None or signature[:4] != number_bytes(1, 4):
        return False
    bottom_at = 4 + signature_length(types)
    bottom = signature[bottom_at:bottom_at + PUBLIC_LENGTH]
    return (verify(public[4:], bottom, signature[4:bottom_at])
            and verify(bottom, message, signature[bottom_at + PUBLIC_LENGTH:]))
