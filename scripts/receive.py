#!/usr/bin/env python3
"""Writes the UDP datagrams that come as a session, each at once, until none has come for so many
seconds.

    receive.py ADDRESS PORT SECONDS [--interface NAME] > SESSION
    receive.py ADDRESS PORT SECONDS | alcrs follow /dev/stdin OUT --tsi N --toi N

A multicast address is joined. At the end, also by Ctrl-C, it says on standard error how many came.
"""
import argparse
import ipaddress
import socket
import sys

from frames import write_frame

# As much as may come while the output waits. The system may give less.
WAITING = 16 << 20


def receiver_of(address, port, interface):
    """A socket that receives what comes to this address; a group's is joined on the interface, if
    one is named.
    """
    ip = ipaddress.ip_address(address)
    family = socket.AF_INET6 if ip.version == 6 else socket.AF_INET
    receiver = socket.socket(family, socket.SOCK_DGRAM)
    receiver.setsockopt(socket.SOL_SOCKET, socket.SO_REUSEADDR, 1)
    receiver.setsockopt(socket.SOL_SOCKET, socket.SO_RCVBUF, WAITING)
    receiver.bind((address, port))
    if ip.is_multicast:
        index = socket.if_nametoindex(interface) if interface else 0
        if ip.version == 6:
            request = ip.packed + index.to_bytes(4, sys.byteorder)
            receiver.setsockopt(socket.IPPROTO_IPV6, socket.IPV6_JOIN_GROUP, request)
        else:
            # struct ip_mreqn: the group, an own address, the interface
            request = ip.packed + bytes(4) + index.to_bytes(4, sys.byteorder)
            receiver.setsockopt(socket.IPPROTO_IP, socket.IP_ADD_MEMBERSHIP, request)
    return receiver


def main():
    parser = argparse.ArgumentParser(description=" ".join(__doc__.split("\n\n")[0].split()))
    parser.add_argument(
        "address", metavar="ADDRESS", help="of IPv4 or IPv6, this host's or a group's"
    )
    parser.add_argument("port", metavar="PORT", type=int)
    parser.add_argument("seconds", metavar="SECONDS", type=float)
    parser.add_argument(
        "--interface", metavar="NAME", help="of a group: where it is joined, as eth0"
    )
    given = parser.parse_args()
    count = 0
    output = open(sys.stdout.fileno(), "wb", buffering=0, closefd=False)
    try:
        with receiver_of(given.address, given.port, given.interface) as receiver:
            receiver.settimeout(given.seconds)
            while True:
                datagram = receiver.recv(65535)
                write_frame(output, datagram)
                count += 1
    except (TimeoutError, BrokenPipeError, KeyboardInterrupt):
        # whoever reads has closed the pipe, or nothing comes any more
        print(f"received {count} datagrams", file=sys.stderr)


try:
    main()
except (OSError, ValueError) as fault:
    sys.exit(f"receive.py: {fault}")
