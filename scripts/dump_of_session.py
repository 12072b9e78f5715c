#!/usr/bin/env python3
"""Prints the datagrams of a session file as the dump that text2pcap reads.

    dump_of_session.py < SESSION > DUMP
"""
import sys

from frames import read_frames

try:
    for datagram in read_frames(sys.stdin.buffer):
        print("000000", datagram.hex(" "))
except EOFError:
    sys.exit("dump_of_session.py: the session is cut behind these datagrams")
