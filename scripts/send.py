#!/usr/bin/env python3
"""Sends the datagrams of a session file by UDP, so many a second.

    send.py SESSION ADDRESS PORT RATE [--ttl N] [--interface NAME]

The rate is kept on the whole: where sending a datagram takes long, the next ones follow at once. A
session that is cut is sent up to there, and the status is 1.
"""
import argparse
import ipaddress
import socket
import sys
import time

from frames import read_frames


def sender_to(address, ttl, interface):
    """A socket that sends to this address, a group's through the interface, if one is named."""
    ip = ipaddress.ip_address(address)
    family = socket.AF_INET6 if ip.version == 6 else socket.AF_INET
    sender = socket.socket(family, socket.SOCK_DGRAM)
    if ip.is_multicast:
        index = socket.if_nametoindex(interface) if interface else 0
        if ip.version == 6:
            sender.setsockopt(socket.IPPROTO_IPV6, socket.IPV6_MULTICAST_HOPS, ttl)
            sender.setsockopt(socket.IPPROTO_IPV6, socket.IPV6_MULTICAST_IF, index)
        else:
            sender.setsockopt(socket.IPPROTO_IP, socket.IP_MULTICAST_TTL, ttl)
            # struct ip_mreqn: the group, an own address, the interface
            request = bytes(8) + index.to_bytes(4, sys.byteorder)
            sender.setsockopt(socket.IPPROTO_IP, socket.IP_MULTICAST_IF, request)
    return sender


def main():
    parser = argparse.ArgumentParser(description=" ".join(__doc__.split("\n\n")[0].split()))
    parser.add_argument("session", metavar="SESSION")
    parser.add_argument("address", metavar="ADDRESS", help="of IPv4 or IPv6, a host's or a group's")
    parser.add_argument("port", metavar="PORT", type=int)
    parser.add_argument("rate", metavar="RATE", type=float, help="datagrams a second")
    parser.add_argument(
        "--ttl", type=int, default=16, metavar="N", help="of a group: how far they go (default 16)"
    )
    parser.add_argument(
        "--interface", metavar="NAME", help="of a group: where they go out, as eth0"
    )
    given = parser.parse_args()
    if given.rate <= 0:
        parser.error("RATE has to be more than 0")
    count = 0
    with open(given.session, "rb") as session, sender_to(
        given.address, given.ttl, given.interface
    ) as sender:
        to = (given.address, given.port)
        start = time.monotonic()
        try:
            for datagram in read_frames(session):
                # what is due within a millisecond is sent at once, as a sleep takes no less
                early = start + count / given.rate - time.monotonic()
                if early > 0.001:
                    time.sleep(early)
                sender.sendto(datagram, to)
                count += 1
        except EOFError:
            print(f"sent {count} datagrams")
            sys.exit(f"{given.session} is cut behind them")
    print(f"sent {count} datagrams")


try:
    main()
except (OSError, ValueError) as fault:
    sys.exit(f"send.py: {fault}")
except KeyboardInterrupt:
    sys.exit("send.py: stopped")
