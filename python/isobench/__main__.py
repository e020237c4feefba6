"""The command `isomesh`, as ``python3 -m isobench``."""
import sys

from ._command import main

if __name__ == "__main__":
    sys.exit(main())
