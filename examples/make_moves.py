"""Make the example's moves file: 200 restarts with few moves each, but for three weeks in which a rack is exchanged machine by
machine, and one restart after a power cut.

    make_moves.py [FOLDER]    writes moves.bin under FOLDER; without one, beside this script"""
import os
import struct
import sys

HERE = os.path.dirname(os.path.abspath(__file__))
RESTARTS, FIRST = 200, 3117
EXCHANGE, POWER_CUT = range(84, 103), 128


def drawn(state=20):
    """Numbers below 32768 without an end, the same ones each time."""
    while True:
        state = (state * 1103515245 + 12345) % 2**31
        yield state >> 16


def lines():
    """Each restart's number and moves. Now and then a number is left out: a restart that was given up."""
    number, numbers = FIRST, drawn()
    for place in range(RESTARTS):
        moves = next(numbers) % 6 * (next(numbers) % 3) // 2
        if place in EXCHANGE:
            moves += 6 + next(numbers) % 17
        if place == POWER_CUT:
            moves = 57
        yield number, moves
        number += 1 + (next(numbers) % 9 == 0) * (1 + next(numbers) % 4)


def main():
    folder = sys.argv[1] if len(sys.argv) > 1 else HERE
    with open(os.path.join(folder, "moves.bin"), "wb") as out:
        for line in lines():
            out.write(struct.pack("<2I", *line))


main()
