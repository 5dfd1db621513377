"""How a tool begins and ends: with standard streams that can be used, and in any case with a line and a status."""
import contextlib
import os
import signal
import sys
import traceback

CUT_SHORT, FAILED, STOPPED = 5, 70, 128
# Set where whoever mends a tool wants to see where it failed.
TRACE = "LSL_TRACE"
SIGNALS = (signal.SIGINT, signal.SIGTERM, signal.SIGHUP)


class Stopped(BaseException):
    """A signal that ends a process."""


def stop(number, _):
    raise Stopped(number)


def begin(tool):
    """Has a signal end a tool that has done nothing yet, as while its modules are read."""

    def leave_at_once(number, _):
        word = "interrupted" if number == signal.SIGINT else "stopped"
        os.write(2, f"{tool}: {word} (status {STOPPED + number})\n".encode())
        os._exit(STOPPED + number)

    for number in SIGNALS:
        signal.signal(number, leave_at_once)


def open_missing():
    """Has the standard streams open: a file that takes no byte in the place of a closed standard output."""
    paths = ((0, os.devnull, os.O_RDONLY), (1, "/dev/full", os.O_WRONLY), (2, os.devnull, os.O_WRONLY))
    for number, path, how in paths:
        try:
            os.fstat(number)
        except OSError:
            os.dup2(os.open(path, how), number)
    for number, name, how in ((0, "stdin", "r"), (1, "stdout", "w"), (2, "stderr", "w")):
        if getattr(sys, name) is None:
            setattr(sys, name, os.fdopen(number, how, encoding="utf-8", closefd=False))
        getattr(sys, name).reconfigure(errors="surrogateescape")


def run(tool, main):
    """Runs a tool to its end. `main` takes the words of the call, and gives the status."""
    open_missing()
    signal.signal(signal.SIGINT, signal.default_int_handler)
    for number in SIGNALS[1:]:
        signal.signal(number, stop)
    try:
        status = main(sys.argv[1:])
        sys.stdout.flush()
    except SystemExit as end:
        status = flushed(tool, end.code)
    except KeyboardInterrupt:
        if sys.stderr.isatty():
            print(file=sys.stderr)
        status = said(tool, "interrupted", STOPPED + signal.SIGINT)
    except Stopped as signalled:
        status = said(tool, "stopped", STOPPED + signalled.args[0])
    except OSError as error:
        status = failed_file(tool, error)
    except Exception as error:  # pylint: disable=broad-except
        status = unforeseen(tool, error)
    leave(status)


def flushed(tool, code):
    """The status of an end by `sys.exit`, whose text is a line for standard error."""
    if isinstance(code, str):
        print(code, file=sys.stderr)
    try:
        sys.stdout.flush()
    except OSError as error:
        return failed_file(tool, error)
    return 1 if isinstance(code, str) else code or 0


def said(tool, words, status):
    with contextlib.suppress(OSError, ValueError):
        print(f"{tool}: {words} (status {status})", file=sys.stderr)
    return status


def failed_file(tool, error):
    """A file that couldn't be read or written; without a name it is standard output."""
    if error.filename is None:
        return said(tool, "standard output took no more, and is cut short", CUT_SHORT)
    return said(tool, f'"{os.fspath(error.filename)}" can\'t be used: {error.strerror}', CUT_SHORT)


def unforeseen(tool, error):
    if os.environ.get(TRACE):
        traceback.print_exc()
    where = f"; {TRACE}=1 shows where" if not os.environ.get(TRACE) else ""
    return said(tool, f"it failed, by a mistake of its own: {type(error).__name__}: {error}{where}", FAILED)


def leave(status):
    """Ends the process, with nothing left to be written that can't be."""
    with contextlib.suppress(OSError, ValueError):
        sys.stderr.flush()
    try:
        sys.stdout.flush()
    except (OSError, ValueError):
        os.dup2(os.open(os.devnull, os.O_WRONLY), 1)
    sys.exit(status)
