"""The groups of commands that are wanted."""

import os

from protocol import GROUPS

PLACE = os.path.join(os.path.dirname(os.path.abspath(__file__)), "..", "landed")


def landed_groups():
    """The groups in the file `landed`, one a line."""
    with open(PLACE) as file:
        groups = [line.strip() for line in file if line.strip()]
    for group in groups:
        if group not in GROUPS:
            raise SystemExit("landed: no such group: " + group)
    return groups
