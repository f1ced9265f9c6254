"""How a tool starts and ends: its exit statuses, and what it says where it can't go on."""
import argparse
import gc
import importlib
import os
import sys
from typing import NoReturn

DONE = 0          # the tool did what it is for
FOUND = 1         # it did, and what it looked for is there: a difference, something undecided
USAGE = 2         # the words are no command (argparse ends with it)
BAD_INPUT = 3     # a file is not what it must be
REFUSED = 4       # a certificate is refused
READ_FAULT = 5    # a file could not be read
WRITE_FAULT = 6   # a file or the output could not be written
NO_MEMORY = 7     # there was no memory
PROGRAM = 20      # distfuture is not there, or ended with an error
MISSING = 21      # a library of Debian is not installed


class Fault(Exception):
    """Why a tool can't go on."""

    def __init__(self, message: str, status: int = BAD_INPUT) -> None:
        super().__init__(message)
        self.status = status


def parser_of(name: str, description: str) -> argparse.ArgumentParser:
    """A parser of the words of a tool; what stands behind the description is kept as it is written."""
    called = os.path.basename(sys.argv[0])      # distfuture-top, where it is installed
    return argparse.ArgumentParser(
        prog=called if called.endswith(f"-{name}") else name, description=description, formatter_class=argparse.RawDescriptionHelpFormatter,
        epilog="Exit statuses: 0 done; 1 something was found or is undecided, where the tool's page says so; 2 wrong words; "
               "3 a bad file;\n4 a certificate is refused; 5 and 6 read and write faults; 7 no memory; 20 the program failed.")


def start(module: str) -> NoReturn:
    """Runs the tool of a module of this package on the words of the command line, and ends with its status.

    The tools keep millions of small objects, hardly any of them in cycles. The collector would look at all of them again and again.
    """
    gc.disable()
    name = os.path.basename(sys.argv[0])
    try:
        status = importlib.import_module(f".{module}", __package__).main(sys.argv[1:])
        sys.stdout.flush()
    except ModuleNotFoundError as error:
        print(f"{name}: {error.name} is not installed: tools/setup installs it", file=sys.stderr)
        status = MISSING
    except Fault as fault:
        print(f"{name}: {fault}", file=sys.stderr)
        status = fault.status
    except UnicodeDecodeError as error:
        print(f"{name}: a file is no text: {error}", file=sys.stderr)
        status = BAD_INPUT
    except BrokenPipeError:
        os.dup2(os.open(os.devnull, os.O_WRONLY), sys.stdout.fileno())
        status = WRITE_FAULT
    except OSError as error:
        print(f"{name}: {error}", file=sys.stderr)
        status = WRITE_FAULT if error.filename is None else READ_FAULT
    except MemoryError:
        print(f"{name}: no memory", file=sys.stderr)
        status = NO_MEMORY
    except KeyboardInterrupt:
        status = 130
    sys.exit(status)
