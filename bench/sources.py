"""Files of this repository, for tar and git."""
import subprocess
from pathlib import Path

TOP = Path(__file__).resolve().parent.parent

FOLDERS = ("docs", "mount", "crates/fuse_files", "crates/store_tests", "tests/mount", "tests/spec")


def run(*words):
    subprocess.run(words, check=True)


class Sources:
    """An archive of some folders of this repository, and a repository of git with the same."""

    def __init__(self, room):
        self.archive, self.repository = f"{room}/archive.tar", f"{room}/repository"
        found = [path for folder in FOLDERS for path in (TOP / folder).rglob("*") if "out" not in path.parts and "__pycache__" not in path.parts]
        names = [str(path.relative_to(TOP)) for path in found if path.is_file() and not path.is_symlink()]
        self.entries = len(names)
        run("tar", "-cf", self.archive, "-C", str(TOP), *names)
        run("git", "init", "-q", self.repository)
        run("tar", "-xf", self.archive, "-C", self.repository)
        run("git", "-C", self.repository, "add", "-A")
        run("git", "-C", self.repository, "-c", "user.name=bench", "-c", "user.email=bench", "commit", "-q", "-m", "all")
