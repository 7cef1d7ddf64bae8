"""What bench/faults --disks tries: syncs that fail on real file systems, since the disk below them is full."""
import os
import re
import shutil
import subprocess

from conditions import mounted
from judging import LAST, Wrong, fresh, tried
from nodes import kill, owner_of, unmark

# How each file system is made, and the size of its image in MiB. (XFS and btrfs make none that is much smaller.)
MAKERS = {"ext4": ("mkfs.ext4 -q -F -b 4096 -E nodiscard,lazy_itable_init=0,lazy_journal_init=0", 32),
          "xfs": ("mkfs.xfs -q -f -K", 320), "btrfs": ("mkfs.btrfs -q -f -K", 320)}
LOG = [f"chain {kill.TAG} 9 1000"]


def on_disks(program, tally, room):
    """Each file system in turn; what can't be had is said."""
    for kind, (maker, size) in MAKERS.items():
        why = f"{maker.split()[0]} isn't on the path" if not shutil.which(maker.split()[0]) else None
        if not why and not on_disk(program, kind, maker, size, tally, room):
            why = "no tmpfs and loop device can be had"
        print(f"{kind}: left out, since {why}" if why else f"{kind}: tried", flush=True)


def on_disk(program, kind, maker, size, tally, room):
    """A sync that fails since the disk below is full: later runs may not read what that disk doesn't have. False where
    no such disk can be had.

    The gate of the record stands alone in its block: in front of it are noughts, which a `lay` put there, and the
    block behind it has room. The block's place on the disk is given back, and the disk filled. Then writing the gate
    fails, and the disk has the noughts, as before. Since btrfs writes no block where it stood, there all places that
    are free are given back, and what fails is the first write of the run."""
    with mounted(["-t", "tmpfs", "-o", f"size={size + 8}m", "tmpfs"], f"{room}/ram") as ram:
        if ram is None:
            return False
        image = f"{ram}/image"
        loop = ["-o", "loop" if kind == "btrfs" else "loop,nodiscard", image]
        sh(f"truncate -s {size}M $0 && {maker} $0 && fallocate -l {size}M $0", image)
        with mounted(loop, f"{room}/disk") as disk:
            if disk is None:
                return False
            node = gate_alone(program, fresh(f"{disk}/node"), LOG)
            if kind == "btrfs":
                sh("fstrim $0", disk)
            else:
                block = block_of(f"{node}/notes.journal", 2)
                sh(f"fallocate -p -o {block * 4096} -l 4096 $0", image)
            sh("dd if=/dev/zero of=$0.fill bs=4096 status=none; dd if=/dev/zero of=$0.rest bs=1 count=8192 status=none;"
               " true", image)
            _, first = kill.run(program, node, "operator", LOG, ["lay 2 0xaa"])
            sh("rm -f $0.fill $0.rest", image)
            second = kill.run(program, node, "operator", LOG, ["seal"])
        with mounted(loop, f"{room}/disk") as disk:
            node = f"{disk}/node"
            found, _ = kill.records(node, "notes.journal")
            unmark(node)
            third = kill.run(program, node, "operator", LOG, ["seal"])
    tried(tally, kind, "a sync that fails", first, {6}, lambda: after_restart(found, second, third), "disk")
    return True


def after_restart(found, second, third):
    """The run behind the failed one, and, behind a restart, the records and the run."""
    if len(found) != 2 or third[1] != 0 or not third[0].startswith(b"sealed 1\n"):
        raise Wrong(f"after the restart: {len(found)} records, status {third[1]}, {third[0][:20]!r}")
    if second != (LAST[6], 6):
        raise Wrong(f"the next run ends with status {second[1]} and {second[0][:9]!r}, which the disk doesn't have")


def gate_alone(program, node, log):
    """An operator's folder, in which the last gate is the last byte of its block, behind noughts."""
    path = f"{node}/notes.journal"
    subprocess.run([program, *owner_of("operator")], cwd=node, stdout=subprocess.DEVNULL, check=True)
    # (a frame has 5 bytes in front, and the record of a lay its kind and the coin)
    count = 3 * 4096 - os.stat(path).st_size - 5 - 9
    kill.done(program, node, "operator", log, [f"lay 1 0x{'00' * count}"])
    subprocess.run(["sync"], check=True)
    if os.stat(path).st_size != 3 * 4096:
        raise SystemExit("--disks: the gate isn't the last byte of its block")
    return node


def sh(line, *words):
    subprocess.run(["sh", "-c", line, *words], check=True, stdout=subprocess.DEVNULL, stderr=subprocess.DEVNULL)


def block_of(path, number):
    """The block on its disk of a block of a file."""
    shown = subprocess.run(["filefrag", "-v", "-b4096", path], stdout=subprocess.PIPE, text=True, check=True).stdout
    for first, last, place in re.findall(r"^ *\d+: +(\d+)\.\. +(\d+): +(\d+)\.\.", shown, re.M):
        if int(first) <= number <= int(last):
            return int(place) + number - int(first)
    raise SystemExit(f"filefrag doesn't tell where {path} stands")
