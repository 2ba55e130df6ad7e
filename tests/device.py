"""A device that refuses a page, for the tests of the built program. tests/real_file and tests/hostile use it."""
import contextlib
import os
import pathlib
import shutil

from program import run


class Skipped(Exception):
    """What the check needs can't be had here."""


def system(*words):
    """What a command of the system writes; the check is skipped where it fails."""
    if os.geteuid() != 0:
        raise Skipped(f"{words[0]} wants root")
    if not shutil.which(words[0]):
        raise Skipped(f"{words[0]} isn't here")
    ended = run([str(word) for word in words])
    if ended.status != 0:
        raise Skipped(ended.err.decode().strip())
    return ended.out


class Device:
    """A file system on a loop device, which lies in a sparse file on a small tmpfs. Where the tmpfs is full, the device
    refuses each page that isn't there yet."""

    PAGE = 4096

    def __init__(self, folder, memory="2m", image="4M"):
        self.memory, self.files = folder / "memory", folder / "files"
        self.image, self.filler = self.memory / "image", self.memory / "filler"
        self.sizes = memory, image
        self.undo = contextlib.ExitStack()

    def __enter__(self):
        with self.undo:
            self.memory.mkdir()
            self.files.mkdir()
            memory, image = self.sizes
            system("mount", "-t", "tmpfs", "-o", f"size={memory}", "none", self.memory)
            self.undo.callback(system, "umount", "--lazy", self.memory)
            system("truncate", f"--size={image}", self.image)
            # A journal would take what is refused for the end of the file system.
            system("mkfs.ext4", "-q", "-F", "-b", self.PAGE, "-O", "^has_journal", self.image)
            system("mount", "-o", "loop", self.image, self.files)
            self.undo.callback(system, "umount", "--lazy", self.files)
            self.take_single_pages()
            self.undo = self.undo.pop_all()
        return self

    def __exit__(self, *_):
        self.undo.close()

    def take_single_pages(self):
        """Each request of the device writes one page. Of a longer one Linux 6.18 counts all as written, if at least the
        first page was."""
        device = os.stat(self.files).st_dev
        limit = pathlib.Path(f"/sys/dev/block/{os.major(device)}:{os.minor(device)}/queue/max_sectors_kb")
        try:
            before = limit.read_text()
            limit.write_text(str(self.PAGE // 1024))
        except OSError as why:
            raise Skipped(f"the device can't be told to take single pages: {why}")
        self.undo.callback(limit.write_text, before)

    def place_of(self, content):
        """Where the content of a file begins on the device."""
        at = self.image.read_bytes().find(content)
        if at < 0 or at % self.PAGE:
            raise Skipped("the file doesn't lie on the device in one piece")
        return at

    def has(self, at, count):
        """What is left of a file after a loss of power."""
        return self.image.read_bytes()[at : at + count]

    def page_of(self, place):
        """Where the page begins that has a place."""
        return place - place % self.PAGE

    def write_back(self):
        """Has the system write what waits, as it does by itself some time after a write."""
        # What it can't write isn't told here.
        run(["sync", "-f", str(self.files)])

    def refuse(self, at):
        """From now on the device refuses the page; gives what the page has."""
        page = self.has(at, self.PAGE)
        system("fallocate", "--punch-hole", "--offset", at, "--length", self.PAGE, self.image)
        with contextlib.suppress(OSError), open(self.filler, "wb", buffering=0) as filler:
            while True:
                filler.write(bytes(self.PAGE))
        return page

    def mend(self, at, page):
        """The device takes all pages again, and has the page that it had before."""
        self.filler.unlink()
        with open(self.image, "r+b") as image:
            image.seek(at)
            image.write(page)
