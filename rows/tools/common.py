"""What the scripts of this folder share: the rows and their files."""
import codecs
import importlib.machinery
import importlib.util
import os

HERE = os.path.dirname(os.path.abspath(__file__))

# The folder of all rows, and those of the rows of one report or one purpose in it.
TOP = os.path.dirname(HERE)
ROOMS = ('ac', 'last', 'lastb', 'sa', 'all', 'check', 'faults', 'help', 'examples')


def places():
    """Where each row stands, by its name."""
    rooms = [os.path.join(TOP, room) for room in ROOMS]
    return {name: os.path.join(room, name) for room in rooms if os.path.isdir(room) for name in os.listdir(room)}


PLACES = places()


def read(row, name):
    try:
        with open(os.path.join(PLACES[row], name), 'rb') as file:
            return file.read()
    except FileNotFoundError:
        return None


def words(row):
    """The words of the command line as bytes; a byte stands in the file as \\xNN where it does not print."""
    return [codecs.escape_decode(line)[0] for line in read(row, 'args').splitlines()]


def rows():
    return sorted(PLACES)


def needs(row):
    return read(row, 'needs').decode().splitlines()


def folder(row):
    """The folder in which the program runs."""
    return os.path.join(PLACES[row], 'files')


def load(name):
    """The script of that name in this folder, as a module."""
    loader = importlib.machinery.SourceFileLoader(name, os.path.join(HERE, name))
    module = importlib.util.module_from_spec(importlib.util.spec_from_loader(name, loader))
    loader.exec_module(module)
    return module
