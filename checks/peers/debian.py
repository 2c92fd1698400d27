"""Source packages of Debian, fetched by `apt-get` over lists of its own."""
import tarfile
from threading import Lock

from checks.shared.running import ran

SOURCES = """Types: deb-src
URIs: http://deb.debian.org/debian
Suites: bookworm
Components: main
Signed-By: /usr/share/keyrings/debian-archive-keyring.gpg
"""


class Unfetched(Exception):
    """Why a package isn't fetched."""


class Apt:
    """`apt-get` with all that it keeps below a folder: nothing of the machine changes. Threads that
    share one wait for each other."""

    def __init__(self, room):
        self.room, self.lock = room, Lock()
        for name in ("lists/partial", "cache/archives/partial", "parts", "source"):
            (room / name).mkdir(parents=True)
        (room / "parts" / "source.sources").write_text(SOURCES)
        self.run("update", room)

    def run(self, word, folder, *more):
        """Runs `apt-get` for a word."""
        options = {
            "Dir::Etc::sourcelist": "/dev/null",
            "Dir::Etc::sourceparts": self.room / "parts",
            "Dir::State::lists": self.room / "lists",
            "Dir::Cache": self.room / "cache",
            "APT::Sandbox::User": "root",
        }
        words = [it for name, value in options.items() for it in ("-o", f"{name}={value}")]
        words = ["apt-get", *words, word, *more]
        with self.lock:
            made = ran(words, folder)
        if made.returncode or "Err:" in made.stdout:
            raise Unfetched((made.stderr or made.stdout).strip().splitlines()[-1])
        return made.stdout

    def index(self):
        """What Debian tells of all source packages: a paragraph each."""
        words = "--format", "$(FILENAME)", "Created-By: Sources"
        files = self.run("indextargets", self.room, *words).split()
        return ran(["/usr/lib/apt/apt-helper", "cat-file", *files], self.room).stdout

    def folder_of(self, package):
        """A new folder for a package."""
        folder = self.room / "source" / package
        folder.mkdir()
        return folder

    def unpacked(self, package):
        """The folder of a source package, unpacked and with Debian's changes."""
        folder = self.folder_of(package)
        self.run("source", folder, package)
        return next(it for it in folder.iterdir() if it.is_dir())

    def grammars(self, package):
        """The grammar files of a source package, each with its name."""
        folder = self.folder_of(package)
        self.run("source", folder, "--download-only", package)
        for archive in sorted(folder.glob("*.tar.*")):
            if archive.suffix == ".asc":
                continue
            with tarfile.open(archive) as tar:
                for member in tar:
                    if member.isfile() and member.name.endswith((".y", ".yy")):
                        yield member.name, tar.extractfile(member).read()
