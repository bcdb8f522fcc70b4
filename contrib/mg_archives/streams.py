"""The streams of the program, without a buffer that would be written a second time where the first failed."""

import os


def write_whole(stream, data):
    """Writes all bytes to the stream of this number."""
    while data:
        data = data[os.write(stream, data) :]
