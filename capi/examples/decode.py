"""Sends a text as six datagrams, asks what may be lost, loses two of them, and decodes the rest."""
import alcrs

text = b"Any four of these six datagrams give this text."
session = alcrs.encode(text, tsi=7, toi=1, symbol_length=12, block_length=4, max_symbols=6)
certificate = alcrs.certify(text, tsi=7, toi=1, symbol_length=12, block_length=4, max_symbols=6)
report = alcrs.check(session, text, certificate, tsi=7, toi=1)
print("margin", report.margin)
frame = 2 + 32 + 12  # the datagram's length, its header, and a symbol of 12 bytes
print(alcrs.decode(session[2 * frame :], tsi=7, toi=1).decode())
