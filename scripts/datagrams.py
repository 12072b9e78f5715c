"""The UDP datagrams of a capture, as session_of_capture takes them.

The capture is pcap or pcapng. Frames of Ethernet, Linux cooked, raw IP and loopback are read. VLAN
tags, GRE and IP in IP are taken off, and fragments are put together. What ICMP quotes is no
datagram.
"""
import collections
import struct
import zlib

# The greatest block of a capture that is read, as in Wireshark.
LARGEST = 16 << 20
# So many frames later a packet's missing fragments come no more, and its number may come again.
LONGEST_WAIT = 10_000

SECTION, INTERFACE, OLD_PACKET, SIMPLE_PACKET, PACKET = 0x0A0D0D0A, 1, 2, 3, 6
IPV4, IPV6, BRIDGED, VLAN_TAGS = 0x0800, 0x86DD, 0x6558, (0x8100, 0x88A8, 0x9100, 0x9200)
UDP, GRE, FRAGMENT, EXTENSIONS = 17, 47, 44, (0, 43, 60)
IP_IN_IP = {4: IPV4, 41: IPV6}
TUNNELS = (GRE, *IP_IN_IP)
# Link types whose header has the type of what comes: where the type stands, and the header's size.
TYPED_LINKS = {1: (12, 14), 113: (14, 16), 276: (0, 20)}
# Link types with an IP packet, and the size of the header before it.
IP_LINKS = {0: 4, 108: 4, 12: 0, 14: 0, 101: 0, 228: 0, 229: 0}

Datagram = collections.namedtuple("Datagram", "source destination held")


class Damaged(Exception):
    """Why the capture can't be read on."""


class Cut(Exception):
    """The capture has cut bytes that are needed."""


class Malformed(Exception):
    """What was sent lacks bytes that are needed, or has wrong ones."""


class Part:
    """Bytes that were sent: the first of them, as far as the capture has them, and how many."""

    __slots__ = ("data", "size")

    def __init__(self, data, size):
        self.data, self.size = data[:size], size

    def first(self, count):
        if len(self.data) >= count:
            return self.data[:count]
        if self.size >= count:
            raise Cut(f"the capture has {len(self.data)} of {self.size} bytes")
        raise Malformed

    def after(self, count):
        self.first(count)
        return Part(self.data[count:], self.size - count)


class Capture:
    """The frames of a file; `number` counts those that came."""

    def __init__(self, file):
        self.file, self.number = file, 0

    def damaged(self, how="is damaged"):
        return Damaged(f"{how} after frame {self.number}")

    def read(self, size, may_end=False):
        if size > LARGEST:
            raise self.damaged()
        try:
            data = self.file.read(size)
        except EOFError:
            raise self.damaged("is cut off") from None
        except (OSError, zlib.error) as fault:
            raise self.damaged(f"can't be read ({fault})") from None
        if len(data) < size and (data or not may_end):
            raise self.damaged("is cut off")
        return data

    def __iter__(self):
        """The interface, the link type and the bytes of each frame."""
        magic = self.read(4, may_end=True)
        if magic == SECTION.to_bytes(4, "big"):
            frames = self.frames_of_pcapng(magic)
        elif magic in (b"\xd4\xc3\xb2\xa1", b"\x4d\x3c\xb2\xa1"):
            frames = self.frames_of_pcap("<")
        elif magic in (b"\xa1\xb2\xc3\xd4", b"\xa1\xb2\x3c\x4d"):
            frames = self.frames_of_pcap(">")
        else:
            raise Damaged("is no capture in the format pcap or pcapng")
        for frame in frames:
            self.number += 1
            yield frame

    def frames_of_pcap(self, order):
        link = struct.unpack(order + "16xI", self.read(20))[0] & 0xFFFF
        while True:
            header = self.read(16, may_end=True)
            if not header:
                return
            captured, size = struct.unpack(order + "8xII", header)
            yield 0, link, Part(self.read(captured), max(captured, size))

    def frames_of_pcapng(self, kind):
        order, interfaces = "", []
        while kind:
            size = self.read(4)
            if kind == SECTION.to_bytes(4, "big"):
                mark, interfaces = self.read(4), []
                order = "<" if mark == b"\x4d\x3c\x2b\x1a" else ">"
            else:
                mark = b""
            number, length = struct.unpack(order + "II", kind + size)
            if length < 12 + len(mark):
                raise self.damaged()
            body = self.read(length - 12 - len(mark))
            if self.read(4) != size:
                raise self.damaged()
            try:
                if number == INTERFACE:
                    interfaces.append(struct.unpack_from(order + "HxxI", body))
                elif number in (PACKET, OLD_PACKET, SIMPLE_PACKET):
                    yield frame_of_block(order, number, body, interfaces)
            except (struct.error, IndexError):
                raise self.damaged() from None
            kind = self.read(4, may_end=True)


def frame_of_block(order, kind, body, interfaces):
    """A frame of pcapng. IndexError or struct.error if the block is damaged."""
    if kind == SIMPLE_PACKET:
        interface, begin = 0, 4
        size = struct.unpack_from(order + "I", body)[0]
        captured = min(size, interfaces[0][1] or size)
    else:
        form = order + ("I" if kind == PACKET else "Hxx") + "8xII"
        interface, captured, size = struct.unpack_from(form, body)
        begin = 20
    if len(body) < begin + captured:
        raise IndexError
    data = body[begin:begin + captured]
    return interface, interfaces[interface][0], Part(data, max(captured, size))


class Fragments:
    """The fragments of packets that aren't whole yet, by what those of a packet have in common."""

    def __init__(self):
        self.waiting = collections.OrderedDict()

    def put(self, number, key, begin, is_last, part):
        """What the packet holds, if this fragment makes it whole."""
        if key not in self.waiting:
            self.waiting[key] = number, {}, []
        _, parts, ends = self.waiting[key]
        parts[begin] = part
        if is_last:
            ends[:] = [begin + part.size]
        if not ends or sum(one.size for one in parts.values()) < ends[0]:
            return None
        data, at = b"", 0
        while at in parts and parts[at].size:
            # What comes after the first cut has no place.
            data += parts[at].data if len(data) == at else b""
            at += parts[at].size
        if [at] != ends:
            return None
        del self.waiting[key]
        return Part(data, at)

    def take_lacking(self, before):
        """Takes out what has waited since before a frame: each key, and the first bytes."""
        while self.waiting:
            key, (number, parts, _) = next(iter(self.waiting.items()))
            if number >= before:
                return
            del self.waiting[key]
            yield key, parts[0].data[:8] if 0 in parts else b""


def without_link(link, frame):
    """What type of packet a frame has, and the packet. Of IP its first bits tell the version."""
    if link in TYPED_LINKS:
        place, size = TYPED_LINKS[link]
        return int.from_bytes(frame.first(size)[place:place + 2], "big"), frame.after(size)
    if link not in IP_LINKS:
        raise Damaged(f"has frames of link type {link}, which isn't read")
    packet = frame.after(IP_LINKS[link])
    return IPV6 if packet.first(1)[0] >> 4 == 6 else IPV4, packet


def without_ipv4(packet):
    """Source, destination, protocol, what comes then, and of a fragment number, begin, is_last."""
    head = packet.first(20)
    length = (head[0] & 15) * 4
    size, ident, place = struct.unpack(">HHH", head[2:8])
    if head[0] >> 4 != 4 or length < 20 or size < length:
        raise Malformed
    packet.first(length)
    fragment = (ident, (place & 0x1FFF) * 8, not place & 0x2000) if place & 0x3FFF else None
    return head[12:16], head[16:20], head[9], Part(packet.data[length:], size - length), fragment


def without_ipv6(packet):
    head = packet.first(40)
    if head[0] >> 4 != 6:
        raise Malformed
    held = Part(packet.data[40:], int.from_bytes(head[4:6], "big"))
    return head[8:24], head[24:40], head[6], held, None


def without_extension(protocol, held):
    """Protocol, what comes then, and of a fragment the same, after one extension of IPv6."""
    if protocol == FRAGMENT:
        protocol, place, ident = struct.unpack(">BxHI", held.first(8))
        fragment = (ident, place & 0xFFF8, not place & 1) if place & 0xFFF9 else None
        return protocol, held.after(8), fragment
    protocol, length = held.first(2)
    return protocol, held.after((length + 1) * 8), None


def without_gre(held):
    flags, version, network = struct.unpack(">BBH", held.first(4))
    if flags & 0x40 or version & 7:
        raise Malformed
    return network, held.after(4 + 4 * sum(flags >> bit & 1 for bit in (7, 5, 4)))


class Datagrams:
    """The datagrams of a capture, each when it is whole. `lacks` is called for each packet whose
    fragments don't all come, with source, destination, protocol and first bytes.
    """

    def __init__(self, file, lacks):
        self.capture, self.fragments, self.lacks = Capture(file), Fragments(), lacks

    def __iter__(self):
        for interface, link, frame in self.capture:
            try:
                network, packet = without_link(link, frame)
                found = self.datagram_of(interface, network, packet)
            except Malformed:
                found = None
            if found:
                yield found
            self.give_up(self.capture.number - LONGEST_WAIT)
        self.give_up(self.capture.number + 1)

    def give_up(self, before):
        for (_, source, destination, protocol, _), first in self.fragments.take_lacking(before):
            self.lacks(source, destination, protocol, first)

    def datagram_of(self, interface, network, packet):
        """The datagram that this packet has, or makes whole."""
        while True:
            if network in VLAN_TAGS:
                network, packet = int.from_bytes(packet.first(4)[2:], "big"), packet.after(4)
            elif network == BRIDGED:
                network, packet = without_link(1, packet)
            elif network in (IPV4, IPV6):
                without_ip = without_ipv4 if network == IPV4 else without_ipv6
                source, destination, *rest = without_ip(packet)
                protocol, held = self.whole((interface, source, destination), network, *rest)
                if held and protocol == UDP:
                    return Datagram(source, destination, held)
                if held and protocol == GRE:
                    network, packet = without_gre(held)
                else:
                    network, packet = IP_IN_IP.get(protocol) if held else None, held
            else:
                return None

    def whole(self, ends, network, protocol, held, fragment):
        """Protocol and content of a packet, or None in place of it while fragments lack."""
        followed = (UDP, *TUNNELS, *((FRAGMENT, *EXTENSIONS) if network == IPV6 else ()))
        while protocol in followed:
            if fragment:
                number, begin, is_last = fragment
                key = (*ends, protocol, number)
                held, fragment = self.fragments.put(
                    self.capture.number, key, begin, is_last, held), None
                if held is None:
                    break
            elif protocol in (UDP, *TUNNELS):
                return protocol, held
            else:
                protocol, held, fragment = without_extension(protocol, held)
        return protocol, None
