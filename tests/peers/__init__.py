"""Other programs read what is written here, what they write is read or refused here, and they fade and mix alike."""

from . import mixers, readers, writers


def run(suite):
    readers.run(suite)
    writers.run(suite)
    mixers.run(suite)
