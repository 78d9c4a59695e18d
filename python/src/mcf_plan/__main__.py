"""`python3 -m mcf_plan` is the command mcf-plan."""

import signal
import sys


def main() -> int:
    """Loads the command and runs it. Ctrl-C while it is loaded ends the process without a word of Python's."""
    if signal.getsignal(signal.SIGINT) is not signal.SIG_IGN:
        signal.signal(signal.SIGINT, signal.SIG_DFL)
    from .cli import main as command

    return command()


if __name__ == "__main__":
    sys.exit(main())
