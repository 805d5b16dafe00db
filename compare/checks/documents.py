"""The documents: the files that term 3 reaches, and every path that is named."""
import re

from harness import TOP

PATH = re.compile(r"`((?:crates|docs|compare|examples|include|samples|scripts)/[^`\s]*)`")


def check(checks, _):
    checks.part("the documents")
    checks.command("docs/TRUST.md has the files that term 3 reaches", [TOP / "compare/reach", "--check"])
    # Not the notes of docs/changes, which name the files of their day.
    for document in sorted(path.relative_to(TOP).as_posix() for folder in ("", "docs", "compare") for path in (TOP / folder).glob("*.md")):
        named = set(PATH.findall((TOP / document).read_text()))
        # NAME and MODULE stand for any; a path with a star names many files.
        missing = sorted(path for path in named if not re.search("NAME|MODULE|LABEL", path) and not any(TOP.glob(path.rstrip("/"))))
        checks.check(f"{document} names {len(named)} paths, and all are there", not missing, "\n".join(missing))
