"""The files that the models make: written or, with --check, compared."""
import os, sys

TOP = os.path.join(os.path.dirname(os.path.abspath(__file__)), "..", "..")


def put(name, content):
    """Text or bytes, at a path from the repository's top."""
    path = os.path.join(TOP, name)
    content = content.encode() if isinstance(content, str) else content
    if "--check" not in sys.argv[1:]:
        with open(path, "wb") as f:
            f.write(content)
        return
    with open(path, "rb") as f:
        stored = f.read()
    if stored != content:
        at = next((i for i, (a, b) in enumerate(zip(stored, content)) if a != b), min(len(stored), len(content)))
        sys.exit("%s is not what the models make: it differs at byte %d" % (name, at))
