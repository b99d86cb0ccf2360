"""A recording in din, plain or compressed: read twice without a copy on the disk, and its distinct blocks counted."""
import os
import re
import stat
import subprocess
import sys
import threading
import time
import zlib

from kk.program import NoAnswer

TOOLS = {b"\x1f\x8b": "gzip", b"\xfd7zXZ\x00": "xz", b"\x28\xb5\x2f\xfd": "zstd", b"BZh": "bzip2"}
CHUNK = 1 << 20
MANY = 1 << 20  # different lines, after which they are read into numbers
FLUSH_LINE = re.compile(rb"^4[ \t]+[0-9a-fA-F]{1,8}(?:[ \t][^\n]*)?$", re.MULTILINE)
DIN_LINE = re.compile(rb"([0-3])[ \t]+([0-9a-fA-F]{1,8})(?:[ \t].*)?", re.DOTALL)
LABELS = {"all": b"0123", "fetch": b"2", "data": b"01"}


class Recording:
    """Bytes that can be read again. What is no file of its own, as a pipe, is held in memory, compressed."""

    def __init__(self, file, name):
        self.file, self.name, self.pieces = file, name, None
        self.regular = stat.S_ISREG(os.fstat(file.fileno()).st_mode)
        if self.regular:
            self.start, self.size = file.tell(), os.fstat(file.fileno()).st_size
            head = file.read(4096)
        else:
            pieces = iter(lambda: file.read(CHUNK), b"")
            first = next(pieces, b"")
            head = first[:4096]
            packed = head.startswith(tuple(TOOLS))
            self.pieces = [piece if packed else zlib.compress(piece, 1) for piece in ([first] if first else [])]
            self.pieces += (piece if packed else zlib.compress(piece, 1) for piece in pieces)
        self.tool = next((tool for magic, tool in TOOLS.items() if head.startswith(magic)), None)
        self.head = next(self.chunks(), b"")[:4096] if self.tool else head

    def chunks(self, progress=None):
        """The bytes, decompressed, in pieces."""
        if self.regular:
            self.file.seek(self.start)
            os.lseek(self.file.fileno(), self.start, os.SEEK_SET)
        plain = self.unpacked() if self.tool else self.raw()
        for chunk in plain:
            if progress:
                progress.told(chunk, self.share())
            yield chunk
        if progress:
            progress.done()

    def raw(self):
        if self.regular:
            return iter(lambda: os.read(self.file.fileno(), CHUNK), b"")
        return (piece if self.tool else zlib.decompress(piece) for piece in self.pieces)

    def unpacked(self):
        """What the tool makes of it. A file that is cut or damaged is no recording."""
        given = self.file if self.regular else subprocess.PIPE
        try:
            tool = subprocess.Popen([self.tool, "-dc"], stdin=given, stdout=subprocess.PIPE, stderr=subprocess.PIPE)
        except OSError:
            package = "xz-utils" if self.tool == "xz" else self.tool
            raise NoAnswer("%s is compressed, and %s is missing (Debian package %s)" % (self.name, self.tool, package))
        try:
            if not self.regular:
                threading.Thread(target=self.hand_on, args=[tool.stdin], daemon=True).start()
            yield from iter(lambda: tool.stdout.read(CHUNK), b"")
            said = tool.stderr.read().decode(errors="replace").strip()
            if tool.wait() != 0:
                raise NoAnswer("%s cannot be decompressed: %s" % (self.name, said))
        finally:
            tool.kill()
            tool.wait()
            tool.stdout.close()
            tool.stderr.close()

    def hand_on(self, pipe):
        try:
            for piece in self.raw():
                pipe.write(piece)
            pipe.close()
        except OSError:
            pass

    def share(self):
        """How much of the file was read, from 0 to 1, or None. A tool shares the place in the file with us."""
        return os.lseek(self.file.fileno(), 0, os.SEEK_CUR) / max(self.size, 1) if self.regular else None


class Progress:
    """A line of its own every five seconds, on a terminal only; nothing is redrawn, so a screen reader can follow."""

    def __init__(self, doing, every=5):
        self.doing, self.every, self.lines = doing, every, 0
        self.begun = self.last = time.time()
        self.shown = sys.stderr is not None and sys.stderr.isatty()

    def told(self, chunk, share):
        self.lines += chunk.count(b"\n")
        if self.shown and time.time() - self.last >= self.every:
            self.last = time.time()
            self.say("" if share is None else ", {:.0%} of the file".format(share))

    def done(self):
        if self.shown:
            self.say(", done")

    def say(self, ending):
        rate = self.lines / max(time.time() - self.begun, 0.001)
        print("{}: {:,} lines, {:,.0f} a second{}".format(self.doing, self.lines, rate, ending), file=sys.stderr, flush=True)


class Blocks:
    """The most different blocks of a recording between two flushes. Lines that are no din are passed over: the program refuses them."""

    def __init__(self, chunks):
        self.most = {kinds: dict.fromkeys(range(2, 13), 0) for kinds in LABELS}
        self.seen = {label: set() for label in b"0123"}  # addresses divided by 4, the smallest block; since the last flush
        lines, rest = set(), b""
        for chunk in chunks:
            whole, end, after = chunk.rpartition(b"\n")
            if not end:
                rest += chunk
                continue
            run, *later = split_at_flushes(rest + whole)
            lines.update(run.split(b"\n"))
            for run in later:
                self.read(lines)
                self.flush()
                lines = set(run.split(b"\n"))
            rest = after
            if len(lines) > MANY:
                self.read(lines)
                lines = set()
        lines.add(rest)
        self.read(lines)
        self.flush()

    def read(self, lines):
        for found in filter(None, map(DIN_LINE.fullmatch, lines)):
            self.seen[found.group(1)[0]].add(int(found.group(2), 16) >> 2)

    def flush(self):
        """Notes where there were more different blocks than between any two flushes before, and begins again."""
        for kinds, most in self.most.items():
            blocks = set().union(*(self.seen[label] for label in LABELS[kinds]))
            for b in most:
                if len(blocks) <= most[12]:  # every size has had as many
                    break
                most[b] = max(most[b], len(blocks))
                blocks = {block >> 1 for block in blocks}
        for blocks in self.seen.values():
            blocks.clear()

    def needs(self, kinds):
        """The room that each block size needs, for each b from 2 to 12."""
        return self.most[kinds]


def split_at_flushes(lines):
    """The runs of lines between those that flush."""
    return FLUSH_LINE.split(lines) if b"\n4" in lines or lines.startswith(b"4") else [lines]
