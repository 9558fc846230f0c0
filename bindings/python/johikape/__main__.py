"""`python3 -m johikape`: a short help, and the demo."""

from __future__ import annotations

import sys
from typing import List

from . import pile_six

HELP = """\
Johikape: which files of a spatial archive a query may skip.

    python3 -m johikape demo    pile six: three files, a query, and which of them it may skip
    pydoc johikape              what the package has"""


def main(arguments: List[str]) -> int:
    if arguments == ["demo"]:
        pile_six.main()
        return 0
    print(HELP, file=sys.stderr if arguments else sys.stdout)
    return 2 if arguments else 0


if __name__ == "__main__":
    sys.exit(main(sys.argv[1:]))
