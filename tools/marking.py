"""What the marks say of a folder: whether it goes on from its mark, and else what it looks like. For the launcher and
tools/mark.
"""
import fcntl
import os
import zlib

import node_files
import marks
from node_files import JOURNALS, LEAVES, NOTES
from marks import Found, Refused

NEVER = "Don't run this folder, and don't put anything else in its place: a leaf that signs twice gives the key away."
AGAIN = "To try something again with a known seed, keep its marks apart: export PLASMA_MARKS=$PWD/marks"
ADOPT = "'plasma-mark adopt', typed in it, asks what it has to know, and then marks it."


class NoNode(Exception):
    """No node is in the folder, and none was: the program says so itself, and writes nothing."""


def looked_at(keeper, folder, in_front_of_run=None):
    """The mark's path, the mark and what stands in the folder, where that goes on from the mark; else Refused. Behind
    the first run of a copy its mark is the one that it had in front."""
    images = marks.images_in(folder)
    try:
        identity = node_files.identity_in(images.get(NOTES))
    except node_files.Unfit as error:
        raise (Refused(unknown(keeper, folder, images, error)) if keeper.of_folder(folder) else NoNode()) from error
    path = keeper.path(identity, folder)
    mark = keeper.at(path) or in_front_of_run or other_mark(keeper, identity, images, path)
    if not mark:
        raise Refused(unmarked(keeper, folder, identity, images))
    wrong, ends = [], {}
    for name, end in mark.ends.items():
        image, place = images.get(name), None
        try:
            place = None if image is None else marks.goes_on(image, end)
        except node_files.Unfit as error:
            wrong += [f"{name} breaks off behind what the last run left: {error}"]
            continue
        if place is None:
            wrong += told(name, image, end, mark)
        ends[name] = place
    if wrong:
        raise Refused([*wrong, *what_to_do(mark, images)])
    return path, mark, Found(identity, images, ends)


def other_mark(keeper, identity, images, path):
    """Of a node without a key: the mark of another folder of which this one is a copy. Where there are several such
    folders it has to end where the mark does: an old copy of one of them may go on from the mark of another."""
    if identity.seed:
        return None
    begin = path.partition("-")[0]
    known = [mark for other, mark in keeper.all() if mark and other.partition("-")[0] == begin]
    return next((mark for mark in known if goes_on_from(mark, images, ends_there=len(known) > 1)), None)


def goes_on_from(mark, images, ends_there=False):
    try:
        for name, end in mark.ends.items():
            place = marks.goes_on(images[name], end) if name in images else None
            if place is None or ends_there and place != end.place:
                return False
        return True
    except node_files.Unfit:
        return False


# ---- what it looks like

def unknown(keeper, folder, images, error):
    """Lines on a folder whose notes don't begin as a node's."""
    mark, lines = keeper.of_folder(folder), []
    for name, end in mark.ends.items():
        if name not in images or not holds(images[name], end):
            lines += told(name, images.get(name), end, mark)
    return [*(lines or [f"{NOTES}: {error}"]), *what_to_do(mark, images)]


def unmarked(keeper, folder, identity, images):
    """Lines on a node that has no mark."""
    mark = keeper.of_folder(folder)
    if not mark:
        near = similar(keeper, identity)
        return [f"this {marks.called(identity)} has no mark, so nobody knows whether its journals are the newest",
                *near, ADOPT]
    lines = [f"this folder was that of another node, a {mark.node}, when it was last run here: either this is another"
             " node's file, or a byte of the identity changed"]
    for name, end in mark.ends.items():
        if name in images and not holds(images[name], end):
            lines += told(name, images[name], end, mark)
    return [*lines, *what_to_do(mark, images)]


def similar(keeper, identity):
    """A line where a node of the same role and account has a mark."""
    named = [mark for _, mark in keeper.all() if mark and mark.node == marks.called(identity)]
    return [f"there is a mark of another {mark.node}, last in {mark.folder}, of {mark.time}" for mark in named[:1]]


def holds(image, end):
    try:
        return marks.goes_on(image, end) is not None
    except node_files.Unfit:
        return False


def told(name, image, end, mark):
    """Lines on a journal that doesn't go on from its mark."""
    if image is None:
        return [f"{name} is gone"]
    parts, size = changed_parts(image, end)
    try:
        place = node_files.Journal(image).end
    except node_files.Unfit:
        place = None
    # (of the part that an old end is in, the end byte itself is other)
    if place is not None and place < end.place and not any((at + 1) * size <= place for at in parts):
        if len(image) <= end.place or is_earlier(name, image, place, mark):
            return old_copy(name, image, place, end, mark)
    if not end.checks:
        return [f"{name} isn't what the last run left: it lacks what that wrote up to byte {end.place}"]
    if is_elsewhere_too(parts, image, end, size):
        return [f"{name} isn't what the last run left, from byte {parts[0] * size} on: another node's file, or another"
                " copy of this node's that was run elsewhere"]
    first = parts[0] * size if parts else end.place
    lines = [f"{name} was changed in {len(parts)} place(s), first between bytes {first} and"
             f" {min(first + size, end.place)}"]
    if place is not None and place < end.place:
        lines.append(f"it now ends at byte {place} of {end.place}: behind this gate, which was open, stand records that"
                     " no run would see")
    return lines + inside_of(name, image, first)


def changed_parts(image, end):
    """The numbers of the parts that aren't as marked, and their size."""
    view = memoryview(image)
    found = [at for at, check in enumerate(end.checks)
             if zlib.crc32(view[at * end.size : min((at + 1) * end.size, end.place)]) != check]
    return found, end.size


def is_earlier(name, image, place, mark):
    """The time at which a run left the journal so; None where none is known."""
    total = marks.end_at(image, place).sum
    return next((when for when, *it in mark.earlier if it == [name, place, total]), None)


def old_copy(name, image, place, end, mark):
    """Lines on a journal that is as it was earlier."""
    when = is_earlier(name, image, place, mark)
    when = f" of {when}" if when else ""
    return [f"{name} is an old copy{when}: it ends at byte {place}, and the last run left {end.place} bytes"]


def is_elsewhere_too(parts, image, end, size):
    """Whether a journal differs from some place on, in each part or nearly."""
    rest = len(end.checks) - parts[0] if parts else 0
    return len(parts) > 2 and len(parts) * 4 >= rest * 3 or len(image) > end.place and len(parts) == rest > 2


def inside_of(name, image, place):
    """A line on what stands at a place of a journal, where its records can be told."""
    at = len(node_files.HEAD)
    number = 0
    while at < len(image):
        try:
            record = node_files.record_at(image, at)
        except node_files.Unfit:
            return []
        if at <= place < at + 5 + len(record.bytes):
            kind = "the node's identity" if name == NOTES and not number else f"record {number} of the file"
            return [f"there stands {kind}, counted from 0, whose gate is at byte {at}"]
        at, number = at + 5 + len(record.bytes), number + 1
    return []


def what_to_do(mark, images):
    """What a person does."""
    lines = [f"the mark is of {mark.time}, of the {mark.node} in {mark.folder}"]
    if mark.used:
        lines.append(f"{mark.used} leaves of its key were used by then")
    return [*lines, NEVER,
            "Keep it for reading, and see docs/HANDBOOK.md, Where a mark doesn't fit."]


# ---- around a run

def before_init(keeper, folder, identity):
    """A seed is for one folder: Refused where its node was made before, and isn't here."""
    mark = keeper.at(keeper.path(identity, folder)) if identity.seed else None
    if mark and not goes_on_from(mark, marks.images_in(folder)):
        raise Refused([f"this seed has a {mark.node} already, made or last run in {mark.folder} at {mark.time}",
                       "A seed is for one folder and no other. Take another seed.", AGAIN])


def may_be_written(folder):
    """Whether no journal is one whose sync failed: its owner may not write it."""
    paths = [os.path.join(folder, name) for name in JOURNALS]
    return all(os.lstat(path).st_mode & 0o200 for path in paths if os.path.lexists(path))


def sync_journals(folder):
    """Lets the journals last before they are marked: a run that was killed may have left bytes in memory alone."""
    for name in JOURNALS:
        try:
            held = os.open(os.path.join(folder, name), os.O_RDONLY | os.O_NOFOLLOW | os.O_NONBLOCK)
        except FileNotFoundError:
            continue
        try:
            os.fsync(held)
        except OSError:
            # (as the program does: no later sync would tell of it)
            os.fchmod(held, 0o400)
            raise
        finally:
            os.close(held)
    marks.sync_folder(folder)


def is_free(folder):
    """Whether no run is on the folder at this moment."""
    for name in JOURNALS:
        try:
            held = os.open(os.path.join(folder, name), os.O_RDONLY | os.O_NOFOLLOW | os.O_NONBLOCK)
        except OSError:
            continue
        try:
            fcntl.flock(held, fcntl.LOCK_EX | fcntl.LOCK_NB)
        except OSError:
            return False
        finally:
            os.close(held)
    return True


class Watch:
    """What a run is seen to add to its journals, in the files that were there in front of it: so that is known also
    where these are removed, replaced or overwritten before the run is marked."""

    def __init__(self, folder, path, mark, found, is_alone):
        self.folder, self.path, self.mark, self.ends = folder, path, mark, found.ends
        self.held, self.added, self.sums = {}, {}, {}
        # (where another run is on the folder, what stands behind an end is none of this run's)
        self.tails = {name: found.images[name][place:] for name, place in found.ends.items()} if is_alone else {}
        for name, place in found.ends.items():
            self.held[name] = os.open(os.path.join(folder, name), os.O_RDONLY | os.O_NOFOLLOW | os.O_NONBLOCK)
            self.added[name], self.sums[name] = bytearray(), marks.state_at(found.images[name], place)

    def look(self):
        """Reads on, as far as there are whole records."""
        for name in self.held:
            while True:
                try:
                    found = self.next_of(name)
                except OSError:
                    break
                if not found:
                    break
                self.added[name] += found

    def next_of(self, name):
        """The next record behind an open gate, with what frames it; nothing where there is none, or not yet."""
        place = self.ends[name] + len(self.added[name])
        head = os.pread(self.held[name], 5, place)
        size = node_files.number(head[1:])
        if len(head) < 5 or head[0] != node_files.GATE or size > node_files.LONGEST:
            return b""
        record = os.pread(self.held[name], size, place + 5)
        return head + record if len(record) == size else b""

    def lost_in(self, images):
        """Lines on the journals that lack what was added."""
        return [f"{name} lacks what the run wrote: it was replaced, or older bytes were put there"
                for name, added in self.added.items()
                if images[name][self.ends[name] : self.ends[name] + len(added)] != added]

    def lost_behind(self, found):
        """Lines on the journals behind whose end a run that ended in order wrote anything: that was an answered record,
        and something closed the gate in front of it. (What a stopped run left stands there from before.)"""
        def is_lost(name, tail):
            end = found.ends[name] + 1
            return found.images[name][end:] != tail[end - self.ends[name] :]

        lost = [name for name, tail in self.tails.items() if is_lost(name, tail)]
        return [f"{name} ends at byte {found.ends[name]}, and behind it stand bytes that the run wrote: older ones were"
                " put over it, and what was answered is lost" for name in lost]

    def keep(self, keeper, found=None):
        """Marks what was added, so that no run goes on from anything older."""
        mark, ends = keeper.at(self.path) or self.mark, {}
        for name, end in mark.ends.items():
            added = self.added[name]
            place, total = self.ends[name] + len(added), self.sums[name].copy()
            total.update(added)
            ends[name] = marks.End(place, total.hexdigest(), end.size, []) if place > end.place else end
            if found and self.lost_behind(found) and len(found.images[name]) > ends[name].place:
                ends[name] = marks.end_at(found.images[name], len(found.images[name]))
        if ends != mark.ends:
            used = mark.used + (node_files.count_in(self.added[LEAVES]) if LEAVES in self.added else 0)
            keeper.put(self.path, mark._replace(folder=self.folder, ends=ends, used=used, time=marks.now()))


def in_front(keeper, folder):
    """Looks at a folder in front of a run."""
    alone = is_free(folder)
    # (else the journals might be those in front of a mark that another run makes meanwhile)
    with keeper.alone():
        path, mark, found = looked_at(keeper, folder)
    return Watch(folder, path, mark, found, alone and is_free(folder))


def renew(keeper, folder, is_new=False, watch=None, in_order=False):
    """Marks what a run left. A new node is marked from its beginning; else the journals have to go on from the mark,
    and to have what the run was seen to add."""
    if not may_be_written(folder):
        return
    with keeper.alone():
        before, found = of_new(keeper, folder) if is_new else of_run(keeper, folder, watch, in_order)
        if not is_new and is_as_marked(before, found, folder):
            return
        # (behind the look, so that no bytes are marked that aren't on the disk)
        sync_journals(folder)
        path = keeper.path(found.identity, folder)
        keeper.put(path, marks.mark_of(found, folder, before))
        if is_new:
            keeper.leave(folder, path)
        elif not os.path.isdir(before.folder):
            keeper.moved(keeper.path(found.identity, before.folder), path)


def of_new(keeper, folder):
    """The mark before, and what stands in the folder of a node that was made."""
    found = marks.found_in(folder)
    before = keeper.at(keeper.path(found.identity, folder))
    if before and not goes_on_from(before, found.images) and found.identity.seed:
        raise Refused([f"this seed has a {before.node} already, in {before.folder}: remove this folder, and take"
                       " another seed"])
    return before, found


def of_run(keeper, folder, watch, in_order):
    """The mark before, and what stands in the folder behind a run."""
    alone, lost, found = is_free(folder), [], None
    try:
        _, before, found = looked_at(keeper, folder, watch and watch.mark)
        if watch:
            lost = watch.lost_in(found.images)
            if not lost and in_order and alone and is_free(folder):
                lost = watch.lost_behind(found)
    except Refused as error:
        lost = error.args[0]
    except NoNode:
        lost = [f"{NOTES} doesn't begin as a node's any more"]
    if lost:
        if watch:
            watch.keep(keeper, found)
        raise Refused([*lost, NEVER] if NEVER not in lost else lost)
    return before, found


def is_as_marked(mark, found, folder):
    """Whether a run added nothing. (A copy that was only asked takes the mark from no folder that is there still.)"""
    same = all(found.ends[name] == end.place for name, end in mark.ends.items())
    return same and (mark.folder == folder or os.path.isdir(mark.folder))


def is_fresh(folder):
    """Whether the journals of a folder are as an init leaves them."""
    try:
        found = marks.found_in(folder)
        return node_files.spelled(found.identity.record) == found.images[NOTES][: found.ends[NOTES] + 1] and (
            not found.identity.seed or found.ends[node_files.LEAVES] == len(node_files.HEAD))
    except node_files.Unfit:
        return False
