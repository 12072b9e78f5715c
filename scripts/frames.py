"""The datagrams of a session file, each behind its length in two bytes, as the scripts for
operators read and write them.
"""


def read_frames(session):
    """The datagrams of a session file, one at a time. EOFError where it is cut."""
    while head := session.read(2):
        length = int.from_bytes(head, "big")
        datagram = session.read(length)
        if len(head) < 2 or len(datagram) < length:
            raise EOFError
        yield datagram


def write_frame(output, datagram):
    """Writes a datagram behind its length, at once. The output has no buffer."""
    rest = memoryview(len(datagram).to_bytes(2, "big") + datagram)
    while rest:
        rest = rest[output.write(rest):]
