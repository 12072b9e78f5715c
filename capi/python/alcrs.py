"""alcrs from Python: certifies multicast file-delivery sessions, and decodes them.

    import alcrs
    answer = alcrs.check(session, an_object, certificate, tsi=7, toi=1)
    print(answer.margin if isinstance(answer, alcrs.Report) else answer)

Sessions, objects and certificates are bytes. The module loads libalcrs.so.1, or the library that
the environment variable ALCRS_LIBRARY names. Calls may run in several threads: ctypes lets other
threads run meanwhile.
"""
from __future__ import annotations

import ctypes
import os
from ctypes import POINTER, byref, c_bool, c_char_p, c_size_t, c_void_p
from ctypes import c_uint8, c_uint16, c_uint32, c_uint64
from dataclasses import dataclass
from enum import IntEnum
from typing import Callable, List, Optional, Tuple, TypeVar, Union

__all__ = [
    "AlcrsError", "Checker", "Early", "Empty", "Missing", "No", "NoCertificate", "NoneShort",
    "NoSession", "Receiver", "Refused", "Report", "Status",
    "certify", "check", "decode", "encode", "object_length", "twin", "version",
]


class Status(IntEnum):
    """What a call returns, as alcrs.h names it."""

    OK = 0
    NO = 1
    MISSING = 2
    EMPTY = 3
    REFUSED = 4
    NO_SESSION = 5
    NO_CERTIFICATE = 6
    NO_FTI = 7
    TOO_LONG = 8
    NO_ROOM = 9
    NO_MEMORY = 10
    OUT_OF_RANGE = 11
    NONE_SHORT = 12
    IS_OPEN = 13
    NOT_OPEN = 14
    MORE = 15
    EARLY = 16
    FULL = 17


class _Fault(ctypes.Structure):
    _fields_ = [(name, c_uint32) for name in ("number", "packet", "fti", "block")] + [
        (name, c_size_t) for name in ("place", "column", "symbol", "have", "need")
    ]


class _Block(ctypes.Structure):
    _fields_ = [("need", c_size_t), ("have", c_size_t)]


class _Report(ctypes.Structure):
    _fields_ = [
        (name, c_size_t) for name in ("block_count", "carriers", "margin", "burst", "kill_count")
    ]


class _Handle(ctypes.Structure):
    """A receiver or a checker."""

    _fields_ = [("place", c_void_p), ("is_open", c_bool)]


# The words of each reason, as the program prints them: {place} and the like are the fault's fields.
_FTI = {
    1: "F1 LengthZero", 2: "F2 LengthTooGreat", 3: "F3 SymbolZero", 4: "F4 BlockZero",
    5: "F5 MaxBelowBlock", 6: "F6 TooManyBlocks",
}
_PACKET = {
    1: "P1 TooShort", 2: "P2 Version", 3: "P3 Psi", 4: "P4 Codepoint", 5: "P5 NoIdentity",
    6: "P6 HeaderLength", 7: "P7 Extension", 8: "P8 FtiLength", 9: "P9 TwoFti",
    11: "P11 FtiValue", 12: "P12 PayloadLength",
}
_REASONS = {
    Status.NO: {
        1: "N1 ObjectLength",
        2: "N2 NotObject block {block} column {column} symbol {symbol}",
        3: "N3 Empty",
        4: "N4 Packet place {place}",
        6: "N6 OtherFti place {place}",
        7: "N7 Range place {place}",
        8: "N8 Symbol place {place} column {column}",
        9: "N9 Thin block {block} have {have} need {need}",
        10: "N10 SymbolLength place {place}",
        11: "N11 NoCarrier",
        12: "N12 OtherCertificate",
    },
    Status.REFUSED: {
        1: "R1 Packet place {place}",
        3: "R3 OtherFti place {place}",
        4: "R4 Range place {place}",
        5: "R5 Clash place {place}",
        6: "R6 NotCode block {block}",
        7: "R7 SymbolLength place {place}",
    },
    Status.NO_SESSION: {1: "S1 CutLength", 2: "S2 CutDatagram", 3: "S3 TooLong"},
    Status.NO_CERTIFICATE: {1: "Z1 Magic", 2: "Z2 Fti", 3: "Z3 Size"},
}
_OTHERS = {
    Status.MISSING: "missing block {block} have {have} need {need}",
    Status.EMPTY: "empty",
    Status.NO_FTI: "",
    Status.TOO_LONG: "O2 SymbolTooLong",
    Status.NO_MEMORY: "NoMemory",
    Status.OUT_OF_RANGE: "a number is out of its range",
    Status.NONE_SHORT: "no twin",
    Status.NOT_OPEN: "the receiver or checker is closed",
    Status.EARLY: "G2 Early",
    Status.FULL: "G1 Full",
}


def _words(status: Status, fault: _Fault) -> str:
    words = _REASONS.get(status, {}).get(fault.number, _OTHERS.get(status, status.name))
    words = words.format(**{name: getattr(fault, name) for name, _ in _Fault._fields_})
    return " ".join(
        it for it in (words, _PACKET.get(fault.packet, ""), _FTI.get(fault.fti, "")) if it
    )


class AlcrsError(Exception):
    """A call that gave no answer. Its text has the reason's words; the fields are those of the
    library's fault.
    """

    def __init__(self, status: Status, fault: _Fault) -> None:
        super().__init__(_words(status, fault))
        self.status = status
        self.number, self.packet, self.fti = fault.number, fault.packet, fault.fti
        self.block, self.place, self.column = fault.block, fault.place, fault.column
        self.symbol, self.have, self.need = fault.symbol, fault.have, fault.need


class Missing(AlcrsError):
    """A block has too few symbols: block, have, need."""


class Empty(AlcrsError):
    """No carrier of the FTI came."""


class Refused(AlcrsError):
    """The datagrams are of no object."""


class NoSession(AlcrsError):
    """The bytes are no session's."""


class NoCertificate(AlcrsError):
    """The bytes are no certificate's."""


class NoneShort(AlcrsError):
    """The check says yes, so that there is no twin."""


class Early(AlcrsError):
    """The datagram has no FTI, and came before one."""


_ERRORS = {
    Status.MISSING: Missing,
    Status.EMPTY: Empty,
    Status.REFUSED: Refused,
    Status.NO_SESSION: NoSession,
    Status.NO_CERTIFICATE: NoCertificate,
    Status.NONE_SHORT: NoneShort,
    Status.EARLY: Early,
}


def _error(status: int, fault: _Fault) -> Exception:
    if status == Status.NO_MEMORY:
        return MemoryError("alcrs")
    if status in (Status.NO_FTI, Status.TOO_LONG, Status.OUT_OF_RANGE, Status.NOT_OPEN):
        return ValueError(_words(Status(status), fault))
    return _ERRORS.get(Status(status), AlcrsError)(Status(status), fault)


@dataclass(frozen=True)
class Report:
    """A yes, and what the session can lose."""

    blocks: List[Tuple[int, int]]
    """Of each block how many source symbols it has, and how many different symbols of it came."""
    carriers: int
    margin: int
    kill: List[int]
    burst: int


@dataclass(frozen=True)
class No:
    """A no, and its first reason. As text it is that of the program's line."""

    number: int
    packet: int
    fti: int
    block: int
    place: int
    column: int
    symbol: int
    have: int
    need: int
    words: str

    def __str__(self) -> str:
        return self.words


_library = ctypes.CDLL(os.environ.get("ALCRS_LIBRARY", "libalcrs.so.1"))
_INPUT = (c_char_p, c_size_t)
_NAME = (c_uint64, c_uint64, c_uint64)
_NUMBERS = (c_uint16, c_uint8, c_uint8)
_OUTPUT = (POINTER(_Fault), POINTER(c_uint8), c_size_t, POINTER(c_size_t))
_VERDICT = (
    POINTER(_Fault), POINTER(_Report), POINTER(_Block), c_size_t, POINTER(c_size_t), c_size_t,
)
for _call, _arguments in {
    "version": (),
    "check": (*_INPUT, *_INPUT, *_INPUT, *_NAME, *_VERDICT),
    "object_length": (*_INPUT, *_NAME, POINTER(_Fault), POINTER(c_uint64)),
    "decode": (*_INPUT, *_NAME, *_OUTPUT),
    "encode": (*_INPUT, c_uint32, c_uint32, *_NUMBERS, c_uint32, c_bool, *_OUTPUT),
    "certify": (*_INPUT, *_NAME, *_NUMBERS, *_OUTPUT),
    "twin": (*_INPUT, *_INPUT, *_INPUT, *_NAME, *_OUTPUT),
    "receiver_open": (POINTER(_Handle), *_NAME),
    "receiver_feed": (POINTER(_Handle), *_INPUT, POINTER(_Fault)),
    "receiver_object": (POINTER(_Handle), *_OUTPUT),
    "receiver_close": (POINTER(_Handle),),
    "checker_open": (POINTER(_Handle), *_INPUT, *_INPUT, *_NAME, POINTER(_Fault)),
    "checker_feed": (POINTER(_Handle), *_INPUT, POINTER(_Fault)),
    "checker_verdict": (POINTER(_Handle), *_VERDICT),
    "checker_close": (POINTER(_Handle),),
}.items():
    getattr(_library, f"alcrs_{_call}").argtypes = _arguments
    getattr(_library, f"alcrs_{_call}").restype = None if _call.endswith("_close") else c_uint32


def version() -> int:
    """The number of the library's interface."""
    return _library.alcrs_version()


if version() != 1:
    raise ImportError(f"the library has interface {version()}, and this module is for 1")


def _name(tsi: int, toi: int) -> Tuple[int, int, int]:
    if not 0 <= tsi < 1 << 64 or not 0 <= toi < 1 << 128:
        raise ValueError("the TSI isn't below 2^64, or the TOI not below 2^128")
    return tsi, toi >> 64, toi & (1 << 64) - 1


def _numbers(*given: Tuple[int, int]) -> Tuple[int, ...]:
    """The numbers, each beside how many bits it has: ctypes would cut others off."""
    if any(not 0 <= number < 1 << bits for number, bits in given):
        raise ValueError("a number is out of its range")
    return tuple(number for number, _ in given)


def _put(call: Callable[..., int], room: int) -> bytes:
    """Calls with a buffer of so many bytes, and once more where it was too small."""
    fault, size = _Fault(), c_size_t()
    for _ in range(2):
        out = (c_uint8 * max(room, 1))()
        status = call(byref(fault), out, room, byref(size))
        if status != Status.NO_ROOM:
            break
        room = size.value
    if status != Status.OK:
        raise _error(status, fault)
    return bytes(memoryview(out)[: size.value])


def _no(fault: _Fault) -> No:
    return No(
        **{name: getattr(fault, name) for name, _ in _Fault._fields_},
        words=_words(Status.NO, fault),
    )


def _verdict(call: Callable[..., int]) -> Union[Report, No]:
    """Calls with room for some blocks and places, and once more where there are more."""
    fault, report = _Fault(), _Report()
    block_room, kill_room = 256, 256
    while True:
        blocks, kill = (_Block * block_room)(), (c_size_t * kill_room)()
        status = call(byref(fault), byref(report), blocks, block_room, kill, kill_room)
        if status != Status.OK or (
            report.block_count <= block_room and report.kill_count <= kill_room
        ):
            break
        block_room = max(block_room, report.block_count)
        kill_room = max(kill_room, report.kill_count)
    if status == Status.NO:
        return _no(fault)
    if status != Status.OK:
        raise _error(status, fault)
    have = [(it.need, it.have) for it in blocks[: report.block_count]]
    killed = list(kill[: report.kill_count])
    return Report(have, report.carriers, report.margin, killed, report.burst)


def check(
    session: bytes, an_object: bytes, certificate: bytes, tsi: int, toi: int
) -> Union[Report, No]:
    """Checks the packets of this TSI and TOI in a session, with the object and its certificate: a
    Report or a No.

    Raises NoSession, NoCertificate or MemoryError.
    """
    name = _name(tsi, toi)
    return _verdict(
        lambda *out: _library.alcrs_check(
            session, len(session), an_object, len(an_object), certificate, len(certificate),
            *name, *out,
        )
    )


def object_length(session: bytes, tsi: int, toi: int) -> int:
    """The length of the object that is sent, as the first carrier tells it. Raises Empty, NoSession
    or MemoryError.
    """
    fault, size = _Fault(), c_uint64()
    status = _library.alcrs_object_length(
        session, len(session), *_name(tsi, toi), byref(fault), byref(size)
    )
    if status != Status.OK:
        raise _error(status, fault)
    return size.value


def decode(session: bytes, tsi: int, toi: int) -> bytes:
    """The object that the packets of this TSI and TOI give. Raises Missing, Empty, Refused,
    NoSession or MemoryError.
    """
    name = _name(tsi, toi)
    # A carrier may claim any length, so the buffer begins no longer than what the session can give.
    return _put(
        lambda *out: _library.alcrs_decode(session, len(session), *name, *out), len(session)
    )


def encode(
    an_object: bytes, tsi: int, toi: int, symbol_length: int, block_length: int, max_symbols: int,
    fti_every: int = 1, rounds: bool = False,
) -> bytes:
    """The session of an object. Raises ValueError where the numbers don't do, or MemoryError."""
    ids = _numbers(
        (tsi, 32),
        (toi, 32),
        (symbol_length, 16),
        (block_length, 8),
        (max_symbols, 8),
        (fti_every, 32),
    )
    return _put(
        lambda *out: _library.alcrs_encode(an_object, len(an_object), *ids, rounds, *out),
        2 * len(an_object),
    )


def certify(
    an_object: bytes, tsi: int, toi: int, symbol_length: int, block_length: int, max_symbols: int
) -> bytes:
    """The certificate of an object. Raises ValueError where the numbers don't do, or MemoryError.
    """
    numbers = _numbers((symbol_length, 16), (block_length, 8), (max_symbols, 8))
    room = len(an_object) + symbol_length + 34
    return _put(
        lambda *out: _library.alcrs_certify(
            an_object, len(an_object), *_name(tsi, toi), *numbers, *out
        ),
        room,
    )


def twin(session: bytes, an_object: bytes, certificate: bytes, tsi: int, toi: int) -> bytes:
    """Another object that agrees with all packets of this TSI and TOI in the session, where a block
    has too few symbols.

    Raises NoneShort where the check says yes, AlcrsError with another reason of a no, NoSession,
    NoCertificate or MemoryError.
    """
    name = _name(tsi, toi)
    return _put(
        lambda *out: _library.alcrs_twin(
            session, len(session), an_object, len(an_object), certificate, len(certificate),
            *name, *out,
        ),
        len(an_object),
    )


_Kept = TypeVar("_Kept", bound="_Closing")


class _Closing:
    """What has a handle, which a with statement closes, or else the end of its life."""

    def __init__(self) -> None:
        self._handle = _Handle()

    def close(self) -> None:
        raise NotImplementedError

    def __enter__(self: _Kept) -> _Kept:
        return self

    def __exit__(self, *_: object) -> None:
        self.close()

    def __del__(self) -> None:
        if hasattr(self, "_handle"):
            self.close()


class Receiver(_Closing):
    """A receiver of the datagrams of one object, one at a time. It belongs to one thread; a with
    statement closes it.

        with alcrs.Receiver(tsi=7, toi=1) as receiver:
            while not receiver.feed(next_datagram()):
                pass
            print(receiver.object())
    """

    def __init__(self, tsi: int, toi: int) -> None:
        super().__init__()
        status = _library.alcrs_receiver_open(byref(self._handle), *_name(tsi, toi))
        if status != Status.OK:
            raise _error(status, _Fault())

    def feed(self, datagram: bytes) -> bool:
        """Passes a datagram on, and tells whether the object is there.

        Where it raises, the datagram is refused and the receiver as before: Refused, Early,
        AlcrsError or MemoryError; ValueError where the receiver is closed.
        """
        fault = _Fault()
        status = _library.alcrs_receiver_feed(
            byref(self._handle), datagram, len(datagram), byref(fault)
        )
        if status not in (Status.OK, Status.MORE):
            raise _error(status, fault)
        return status == Status.OK

    def object(self) -> bytes:
        """The object that the datagrams give. Raises Missing, Empty or MemoryError, or ValueError
        where it is closed.
        """
        return _put(lambda *out: _library.alcrs_receiver_object(byref(self._handle), *out), 0)

    def close(self) -> None:
        """Frees what was kept. A receiver that is closed stays so."""
        _library.alcrs_receiver_close(byref(self._handle))


class Checker(_Closing):
    """A check of the datagrams of one object, one at a time: its verdict is that of check on a
    session of the datagrams that came. It belongs to one thread; a with statement closes it.

        with alcrs.Checker(an_object, certificate, tsi=7, toi=1) as checker:
            while checker.feed(next_datagram()) is None:
                print(checker.verdict())
    """

    def __init__(self, an_object: bytes, certificate: bytes, tsi: int, toi: int) -> None:
        """Where the object and its certificate alone give a no, whatever datagrams come, that is
        what feed and verdict return. Raises NoCertificate or MemoryError.
        """
        super().__init__()
        self._reason: Optional[No] = None
        fault = _Fault()
        status = _library.alcrs_checker_open(
            byref(self._handle), an_object, len(an_object), certificate, len(certificate),
            *_name(tsi, toi), byref(fault),
        )
        if status == Status.NO:
            self._reason = _no(fault)
        elif status != Status.OK:
            raise _error(status, fault)

    def feed(self, datagram: bytes) -> Optional[No]:
        """Passes a datagram on, and returns the first reason against it or against one before it,
        or None. Such a reason is the verdict, whatever follows.

        Raises NoSession for a datagram of more than 65,507 bytes, which isn't counted, unless the
        object and its certificate gave a no already. Raises MemoryError, as does each later feed
        and verdict then, or ValueError where the checker is closed.
        """
        if self._reason is not None:
            return self._reason
        fault = _Fault()
        status = _library.alcrs_checker_feed(
            byref(self._handle), datagram, len(datagram), byref(fault)
        )
        if status == Status.NO:
            return _no(fault)
        if status != Status.OK:
            raise _error(status, fault)
        return None

    def verdict(self) -> Union[Report, No]:
        """The verdict on the datagrams so far: a Report or a No. More may be fed then, and it may
        be asked for again. Raises MemoryError, or ValueError where the checker is closed.
        """
        if self._reason is not None:
            return self._reason
        return _verdict(lambda *out: _library.alcrs_checker_verdict(byref(self._handle), *out))

    def close(self) -> None:
        """Frees what was kept. A checker that is closed stays so."""
        self._reason = None
        _library.alcrs_checker_close(byref(self._handle))
