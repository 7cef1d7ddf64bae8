"""Keys and signatures of RFC 8554 with SHA-256, of the four pairs of types that the program has, made of a seed and
apart from the program.
"""
import functools
import hashlib

HEIGHTS = {5: 5, 6: 10}
# Of a one-time type: the bits of a digit, the chains, and how far the sum of what is left of the digits is shifted.
DIGITS = {3: (4, 67, 4), 4: (8, 34, 0)}


def digest(*parts):
    return hashlib.sha256(b"".join(parts)).digest()


def u16(value):
    return value.to_bytes(2, "big")


def u32(value):
    return value.to_bytes(4, "big")


def name_of(seed):
    """The identifier of a seed's key."""
    return digest(seed)[:16]


def walked(head, start, value, end):
    """A chain's string behind further steps."""
    sha256 = hashlib.sha256
    for step in range(start, end):
        value = sha256(head + bytes((step,)) + value).digest()
    return value


def chain_begin(name, seed, leaf, chain):
    return digest(name, u32(leaf), u16(chain), b"\xff", seed)


def one_time_key(name, seed, ots, leaf):
    """The public key of a leaf."""
    width, chains, _ = DIGITS[ots]
    place = name + u32(leaf)
    ends = [walked(place + u16(it), 0, chain_begin(name, seed, leaf, it), (1 << width) - 1) for it in range(chains)]
    return digest(place, b"\x80\x80", *ends)


def node(name, at, left, right):
    return digest(name, u32(at), b"\x83\x83", left, right)


@functools.lru_cache(maxsize=8)
def tree(seed, types, name=None):
    """The digests of a key's tree, by their number from 1, the root."""
    name, count = name or name_of(seed), 1 << HEIGHTS[types[0]]
    nodes = [b""] * (2 * count)
    for leaf in range(count):
        key = one_time_key(name, seed, types[1], leaf)
        nodes[count + leaf] = digest(name, u32(count + leaf), b"\x82\x82", key)
    for at in range(count - 1, 0, -1):
        nodes[at] = node(name, at, nodes[2 * at], nodes[2 * at + 1])
    return nodes


def key_of(seed, types=(5, 4)):
    """The public key of a seed: 56 bytes."""
    return u32(types[0]) + u32(types[1]) + name_of(seed) + tree(seed, types)[1]


def digits(ots, value):
    """The digits of a digest and of their sum, each the step at which a chain is shown."""
    width, chains, shift = DIGITS[ots]
    most = (1 << width) - 1

    def split(data):
        return [byte >> (8 - width - by) & most for byte in data for by in range(0, 8, width)]

    first = split(value)
    return (first + split(u16(sum(most - it for it in first) << shift)))[:chains]


def signature(seed, types, leaf, message):
    """The signature of a message by a leaf of a seed's key."""
    lms, ots = types
    name, count = name_of(seed), 1 << HEIGHTS[lms]
    place = name + u32(leaf)
    salt = digest(name, u32(leaf), b"\xff\xfd", b"\xff", seed)
    shown = digits(ots, digest(place, b"\x81\x81", salt, message))
    chains = [walked(place + u16(it), 0, chain_begin(name, seed, leaf, it), step) for it, step in enumerate(shown)]
    nodes, at, path = tree(seed, types), count + leaf, []
    while at > 1:
        path.append(nodes[at ^ 1])
        at //= 2
    return b"".join([u32(leaf), u32(ots), salt, *chains, u32(lms), *path])


def is_valid(key, message, sign):
    """Whether a signature of a message is valid under a public key."""
    lms, ots = (int.from_bytes(key[it : it + 4], "big") for it in (0, 4))
    if len(key) != 56 or lms not in HEIGHTS or ots not in DIGITS:
        return False
    (width, chains, _), height = DIGITS[ots], HEIGHTS[lms]
    if len(sign) != 40 + 32 * (chains + height) + 4 or sign[4:8] != u32(ots):
        return False
    leaf, types = int.from_bytes(sign[:4], "big"), 40 + 32 * chains
    if sign[types : types + 4] != u32(lms) or leaf >= 1 << height:
        return False
    name, root = key[8:24], key[24:]
    place = name + u32(leaf)
    shown = digits(ots, digest(place, b"\x81\x81", sign[8:40], message))
    ends = [walked(place + u16(it), step, sign[40 + 32 * it : 72 + 32 * it], (1 << width) - 1)
            for it, step in enumerate(shown)]
    at = (1 << height) + leaf
    found = digest(name, u32(at), b"\x82\x82", digest(place, b"\x80\x80", *ends))
    for level in range(height):
        sibling = sign[types + 4 + 32 * level :][:32]
        found = node(name, at // 2, sibling, found) if at % 2 else node(name, at // 2, found, sibling)
        at //= 2
    return found == root
