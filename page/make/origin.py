"""The version and the commit that the page and the command for Node name."""
import pathlib
import subprocess

top = pathlib.Path(__file__).resolve().parent.parent.parent


def version():
    return (top / "VERSION").read_text().strip()


def commit(files):
    """The commit that is checked out; with `, changed` if one of these files differs from it."""
    def git(*words):
        return subprocess.run(["git", *words], cwd=top, capture_output=True, text=True).stdout.strip()

    head = git("rev-parse", "HEAD")
    changed = git("status", "--porcelain", "--", *map(str, files))
    return f"commit {head[:12]}" + (", changed" if changed else "") if head else "no commit"
