"""Plays a script or a world file as `lsl` does, by a program that is there already. Its words are those of `lsl`."""
import sys

from .. import front, making, playing

NONE = "There is no program yet: the server compiles one before it checks the first script."


def main(words):
    binary = making.last_program()
    if binary is None:
        print(NONE)
        return 0
    if words[0] == "play":
        return playing.Play(words[1:]).play(binary)
    return front.show(binary, front.Options(words))


if __name__ == "__main__":
    sys.stdout.reconfigure(errors="surrogateescape")
    sys.exit(main(sys.argv[1:]))
