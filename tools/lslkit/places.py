"""The repository's folder, and the texts of its files."""
import os

TOP = os.path.dirname(os.path.dirname(os.path.dirname(os.path.abspath(__file__))))


def in_top(*path):
    """The path of a file of the repository."""
    return os.path.join(TOP, *path)


def text_of(*path):
    """The text of a file of the repository."""
    with open(in_top(*path), encoding="utf-8", newline="") as file:
        return file.read()


def bytes_of(name):
    """What a file holds, or none where it can't be read."""
    try:
        with open(name, "rb") as file:
            return file.read()
    except OSError:
        return None


def write_text(path, text):
    """Writes a file with line feeds as they are, and with any bytes that a text was read from."""
    with open(path, "w", encoding="utf-8", errors="surrogateescape", newline="") as file:
        file.write(text)
