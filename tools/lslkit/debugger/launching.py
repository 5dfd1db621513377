"""What an editor's `launch` asks for: a world file or a script, the words of its play, and the folder."""
import contextlib
import os

from .. import kit, stage
from . import starting
from .core import Refused as CoreRefused
from .protocol import Refused
from .session import Empty, Session


def launched(arguments):
    """What is to be closed at the end, and the session. Its world is written for it where a script is named."""
    words = arguments.get("args", [])
    if not all(isinstance(it, str) for it in words):
        raise Refused("`args` are texts")
    folder = arguments.get("cwd")
    if folder is not None and not os.path.isdir(folder):
        raise Refused(f'"{folder}" is no folder')
    if folder is not None:
        os.chdir(folder)
    holder = contextlib.ExitStack()
    try:
        return holder, begun(holder, [arguments["program"], *words])
    except (stage.Bad, kit.NotMade) as error:
        holder.close()
        raise Refused(f"{error}") from None
    except BaseException:
        holder.close()
        raise


def begun(holder, words):
    play = starting.played(words)
    said = starting.unread(play)
    if said:
        raise Refused(said)
    path = holder.enter_context(starting.world_of(play))
    try:
        return Session(starting.core_program(), path)
    except CoreRefused as error:
        raise Refused("\n".join(starting.refused(error, path))) from None
    except Empty as error:
        raise Refused(f"{error}") from None
