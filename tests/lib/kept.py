"""Files that a script works out and the repository keeps. `python3 SCRIPT` writes them; with `--check` it only compares, and fails where one differs."""
import pathlib
import sys

TOP = pathlib.Path(__file__).resolve().parent.parent.parent


def keep(files, folders=()):
    """Files by path from the top of the repository, as bytes or text. A folder named here holds no other files."""
    files = {TOP / path: content.encode() if isinstance(content, str) else content for path, content in files.items()}
    others = [path for folder in folders for path in (TOP / folder).glob("*") if path not in files]
    if "--check" in sys.argv[1:]:
        wrong = [path for path, content in files.items() if not path.exists() or path.read_bytes() != content]
        for path in [*wrong, *others]:
            print(f"{path.relative_to(TOP)} is not what {sys.argv[0]} writes", file=sys.stderr)
        sys.exit(1 if wrong or others else 0)
    for path in others:
        path.unlink()
    for path, content in files.items():
        path.parent.mkdir(parents=True, exist_ok=True)
        path.write_bytes(content)
