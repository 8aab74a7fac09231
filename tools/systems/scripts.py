"""The scripts of this folder, by which the page is driven from outside."""
import os

FOLDER = os.path.dirname(os.path.abspath(__file__))


def text(name: str) -> str:
    """The text of a script."""
    with open(os.path.join(FOLDER, name), encoding='utf-8') as file:
        return file.read()
