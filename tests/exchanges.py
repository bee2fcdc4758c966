"""Many commands at once, to a process or a server that replies to each with one line."""

import os
import threading


def exchange(output, source, commands, replies):
    """Writes commands to one file descriptor as fast as they are read, and reads this number of replies from another."""
    feeder = threading.Thread(target=write_all, args=(output, memoryview(commands)))
    feeder.start()
    lines = 0
    while lines < replies:
        block = os.read(source, 1 << 16)
        assert block, lines
        lines += block.count(b"\n")
    feeder.join()
    assert lines == replies, lines


def write_all(output, text):
    while text:
        text = text[os.write(output, text[: 1 << 16]) :]
