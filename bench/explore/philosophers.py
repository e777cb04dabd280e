#!/usr/bin/env python3
"""Philosophers around a table, each with a meal, and the forks between them: philosophers.py N

A philosopher asks the fork at its left and then the one at its right, by messages, and gives both back. A fork is asked by its two neighbours,
and serves one at a time. All of them may wait for their right fork: that is the stuck outcome.
"""
import sys


def channels(count):
    """What goes between each philosopher and its two forks: it asks, it gets, it gives back."""
    for eater in range(count):
        for fork in (eater, (eater + 1) % count):
            for word, sender, receiver in (("ask", f"eater{eater}", f"fork{fork}"), ("get", f"fork{fork}", f"eater{eater}"),
                                           ("back", f"eater{eater}", f"fork{fork}")):
                yield f"channel {word}{eater}_{fork} from {sender} to {receiver} size 1;"


def eater(number, count):
    """A philosopher."""
    left, right = number, (number + 1) % count
    return (f"process eater{number} {{ var x; send ask{number}_{left} 1; receive get{number}_{left} x; "
            f"send ask{number}_{right} 1; receive get{number}_{right} x; send back{number}_{left} 1; send back{number}_{right} 1; }}")


def fork(number, count):
    """A fork, which looks for one neighbour and then for the other."""
    serves = "".join(
        f"receive ask{eater}_{number} r else {{ }} if r {{ r := 0; send get{eater}_{number} 1; receive back{eater}_{number} r; r := 0; }} "
        for eater in (number, (number - 1) % count))
    return f"process fork{number} {{ var r; while 1 {{ {serves}}} }}"


def main():
    count = int(sys.argv[1])
    print("edition 2;", "program philosophers;", *channels(count), sep="\n")
    print(*(eater(number, count) for number in range(count)), *(fork(number, count) for number in range(count)), "end.", sep="\n")


main()
