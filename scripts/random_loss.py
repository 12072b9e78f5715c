#!/usr/bin/env python3
"""Tells the evenly random loss at which one listener in a thousand fails to get the object.

It reads what `alcrs check` prints at a yes, or any lines `block b need k have h`: `--summary` has
only one of them. A listener fails if of some block fewer than k of its h symbols come. Each
datagram is missed by itself, with the same chance. `plan` uses the same rule.

    alcrs check SESSION OBJECT CERT --tsi N --toi N | random_loss.py [--one-in 1000]
"""
import argparse
import collections
import math
import sys


def blocks_of(symbols, block, most):
    """How many blocks have so many source and encoding symbols, of the first blocks first (RFC
    5052, section 9.1; RFC 5510).
    """
    count = -(-symbols // block)
    small, large = divmod(symbols, count)
    sources = collections.Counter({small + 1: large, small: count - large})
    return {(k, k * most // block): many for k, many in sources.items() if many}


def chance_of_short(need, have, loss):
    """The chance that fewer than `need` of `have` symbols come, from the greatest term down."""
    if have < need:
        return 1.0
    if loss <= 0:
        return 0.0
    return math.fsum(
        math.exp(
            math.lgamma(have + 1) - math.lgamma(come + 1) - math.lgamma(have - come + 1)
            + come * math.log1p(-loss) + (have - come) * math.log(loss)
        )
        for come in range(need)
    )


def chance_of_failure(blocks, loss):
    """The chance that some block is short; `blocks` counts those of each (need, have)."""
    whole = 0.0
    for (need, have), count in blocks.items():
        short = chance_of_short(need, have, loss)
        if short >= 1:
            return 1.0
        whole += count * math.log1p(-short)
    return -math.expm1(whole)


def greatest_loss(blocks, failures):
    """The loss up to which at most so great a part of the listeners fails."""
    low, high = 0.0, 1.0 - 1e-9
    for _ in range(60):
        middle = (low + high) / 2
        if chance_of_failure(blocks, middle) <= failures:
            low = middle
        else:
            high = middle
    return low


def main():
    parser = argparse.ArgumentParser(description=" ".join(__doc__.split("\n\n")[0].split()))
    parser.add_argument(
        "--one-in",
        type=float,
        default=1000,
        metavar="N",
        help="one listener in N may fail (default 1000)",
    )
    one_in = parser.parse_args().one_in
    blocks = collections.Counter()
    for line in sys.stdin:
        words = line.split()
        if words[:1] == ["block"] and words[2:3] == ["need"] and words[4:5] == ["have"]:
            blocks[int(words[3]), int(words[5])] += 1
    if not blocks:
        sys.exit("no line `block b need k have h`: is it the yes of a check without --summary?")
    loss = 100 * greatest_loss(blocks, 1 / one_in)
    print(f"random loss of {loss:.1f} %: one listener in {one_in:g} fails")


if __name__ == "__main__":
    main()
