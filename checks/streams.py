"""Streams that fail as those of users do.

Each is a function that opens one: it takes the ExitStack that closes what it opens and a folder for its files, and
gives the descriptor. An input that fails gives LINES before it does, unless nothing can be read of it.
"""
import os
import socket
import tty

LINES = b'{"a":true}\n{"b":true}\n{"a"'


def kept(opened, descriptor):
    opened.callback(os.close, descriptor)
    return descriptor


def a_folder(opened, folder):
    return kept(opened, os.open(folder, os.O_RDONLY))


def for_writing(opened, folder):
    return kept(opened, os.open(folder / "written", os.O_WRONLY | os.O_CREAT))


def terminal_that_hangs_up(opened, folder):
    ours, theirs = os.openpty()
    tty.setraw(theirs)  # (else it writes CR and LF for LF)
    os.write(theirs, LINES)
    os.close(theirs)
    return kept(opened, ours)


def broken_connection(opened, folder, given=LINES):
    """A socket whose peer has sent what is given, and is gone with a byte unread: the read behind fails."""
    ours, theirs = socket.socketpair()
    theirs.sendall(b"?")
    ours.sendall(given)
    ours.close()
    return kept(opened, theirs.detach())


def without_waiting(opened, folder):
    """A pipe that has no more yet, and is not waited for: the read behind LINES fails."""
    reading, writing = os.pipe()
    os.set_blocking(reading, False)
    os.write(kept(opened, writing), LINES)
    return kept(opened, reading)


def full_disk(opened, folder):
    return kept(opened, os.open("/dev/full", os.O_WRONLY))


def for_reading(opened, folder):
    return kept(opened, os.open("/dev/null", os.O_RDONLY))


def unread_pipe(opened, folder):
    reading, writing = os.pipe()
    os.close(reading)
    return kept(opened, writing)


def unread_socket(opened, folder):
    ours, theirs = socket.socketpair()
    ours.close()
    return kept(opened, theirs.detach())


def full_pipe(opened, folder):
    """A pipe that takes no more, and is not waited for."""
    reading, writing = os.pipe()
    os.set_blocking(kept(opened, writing), False)
    kept(opened, reading)
    try:
        while True:
            os.write(writing, bytes(4096))
    except BlockingIOError:
        return writing
