"""What the tools' command lines have in common."""
import argparse
import os
import sys
from collections.abc import Callable
from typing import TextIO

from lib.ledger import Defect


def parser_of(description: str | None) -> argparse.ArgumentParser:
    """A parser whose help is a script's own first text, as it is written there."""
    return argparse.ArgumentParser(
        description=description, formatter_class=argparse.RawDescriptionHelpFormatter,
    )


def status_of(work: Callable[[], int | None], defects: TextIO = sys.stderr) -> int:
    """Does a tool's work. Status 1: a file couldn't be read. 3: the bytes are no ledger."""
    try:
        status = work() or 0
        sys.stdout.flush()
        return status
    except Defect as defect:
        print(defect, file=defects)
        return 3
    except BrokenPipeError:
        # Who reads has had enough; nothing more is written, also not when the script ends.
        os.dup2(os.open(os.devnull, os.O_WRONLY), sys.stdout.fileno())
        return 1
    except OSError as error:
        print(error, file=sys.stderr)
        return 1
    except KeyboardInterrupt:
        return 130
