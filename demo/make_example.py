#!/usr/bin/env python3
"""Writes recall.rcm: how a library gets an overdue book back, week by week.

Costs are in cents. An action costs its own price and a week without the book.
The weights of an action say how many times in 1,000 it leads to each state.
"""

import struct
from pathlib import Path

PRICE = 4500  # to write the book off and buy another
START = "two weeks over"

# The states in the order of their numbers. A state: (an ending?, estimate, actions).
# An action: (name, cost, {next state: weight}). An estimate is never above the cost to come.
STATES = {
    "one week over": (False, 400, [
        ("wait", 150, {"home": 550, "two weeks over": 450}),
        ("letter", 240, {"home": 650, "promised": 150, "letter sent": 200}),
    ]),
    "two weeks over": (False, 900, [
        ("wait", 150, {"home": 150, "two weeks over": 800, "moved away": 50}),
        ("letter", 240, {"home": 250, "promised": 150, "letter sent": 570, "moved away": 30}),
        ("phone", 380, {"home": 250, "promised": 400, "phoned": 320, "moved away": 30}),
    ]),
    "letter sent": (False, 1000, [
        ("wait", 150, {"home": 120, "promised": 60, "letter sent": 760, "moved away": 60}),
        ("phone", 380, {"home": 200, "promised": 450, "phoned": 290, "moved away": 60}),
        ("visit", 1100, {"home": 600, "promised": 200, "moved away": 120, "lost and paid": 80}),
    ]),
    "promised": (False, 350, [
        ("wait", 150, {"home": 750, "letter sent": 180, "two weeks over": 70}),
        ("grant a week", 120, {"home": 250, "one week over": 750}),
    ]),
    "phoned": (False, 1300, [
        ("phone", 380, {"home": 100, "promised": 300, "phoned": 520, "moved away": 80}),
        ("visit", 1100, {"home": 600, "promised": 200, "moved away": 120, "lost and paid": 80}),
    ]),
    "moved away": (False, 3000, [
        ("forward a letter", 240, {"letter sent": 40, "moved away": 955, "lost and paid": 5}),
        ("ask the register", 1150, {"phoned": 150, "moved away": 800, "lost and paid": 50}),
    ]),
    "home": (True, 0, []),
    "lost and paid": (True, 0, []),
}

NUMBERS = {name: number for number, name in enumerate(STATES)}


def check(name, ending, estimate, actions):
    """The rules that a slip in the table above would break."""
    if ending and (estimate or actions):
        raise ValueError(f"{name}: an ending has no estimate and no actions")
    if estimate > PRICE:
        raise ValueError(f"{name}: the estimate is above the price")
    for action, cost, entries in actions:
        if sum(entries.values()) != 1000:
            raise ValueError(f"{name}, {action}: the weights do not add up to 1,000")
        to_come = sum(weight * STATES[state][1] for state, weight in entries.items())
        if estimate * 1000 > cost * 1000 + to_come:
            raise ValueError(f"{name}, {action}: the estimate of {name} is too high")


def encode():
    """The file: the header, then the states, the actions and the entries, high byte first."""
    states, actions, entries = [], [], []
    for name, (ending, estimate, of_state) in STATES.items():
        check(name, ending, estimate, of_state)
        states.append(struct.pack(">BIHB", ending, estimate, len(actions), len(of_state)))
        for _, cost, of_action in of_state:
            actions.append(struct.pack(">IHB", cost, len(entries), len(of_action)))
            for state, weight in of_action.items():
                entries.append(struct.pack(">HH", NUMBERS[state], weight))
    counts = len(states), NUMBERS[START], len(actions), len(entries)
    header = b"RCM" + struct.pack(">HHHHHI", 1, *counts, PRICE)
    return header + b"".join(states + actions + entries)


if __name__ == "__main__":
    path = Path(__file__).with_name("recall.rcm")
    path.write_bytes(encode())
    print(f"{path.name}: {path.stat().st_size} bytes, {len(STATES)} states")
