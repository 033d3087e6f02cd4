#!/usr/bin/env python3
"""Writes the sheet of the master's week, crates/console/data/week.sheet.

Five presses of one policy; press two is location 1, press five location 4. Roles as in house.py: 0 owner (the top), 1 hand,
2 foreman, 3 master, drawn by the pairs (1,2) (2,3) (4,3) (5,3)."""
from sheets import *

PRESS_TWO, PRESS_FIVE = 1, 4

sheet = Sheet()
line = sheet.line

line(1, roles(HAND))

# the master opens edges to the hands, and closes them again
line(2, 0, 0, roles(MASTER), HAND)
line(2, 0, 1, roles(MASTER), HAND)

for press in range(5):
    line(3, 0)

paths = [
    [(7, roles(HAND))],                                                  # 0 the programme
    [(7, roles(HAND)), (10, roles(HAND))],                               # 1 its dwell times
    [(7, roles(HAND)), (10, roles(HAND)), (1, roles(HAND))],             # 2 the first dwell time
    [(7, roles(HAND)), (9, roles(HAND))],                                # 3 the count of pressings
    [(7, roles(HAND)), (11, roles(FOREMAN))],                            # 4 the foreman's script
    [(14, roles(HAND))],                                                 # 5 where the press's partner stands
    [(7, roles(HAND)), (8, roles(MASTER)), (1, roles(MASTER))],          # 6 the membrane limit
]
for p, steps in enumerate(paths):
    for label, roles_of_step in steps:
        line(4, p, label, roles_of_step)

for press in range(5):
    line(5, press, 1, 7, roles(OWNER, HAND), TREE, 0, 0)                             # the programme
    line(5, press, 2, 8, roles(OWNER, MASTER), TREE, 0, 0)                           # its limits
    line(5, press, 3, 1, roles(OWNER, MASTER), NUMBER, 1900, 0)                      # where the membrane tears
    line(5, press, 2, 9, roles(OWNER, HAND), NUMBER, 12 + press, 0)                  # the count of pressings
    line(5, press, 2, 10, roles(OWNER, HAND, MASTER), TREE, 0, 0)                    # its dwell times
    for stage in range(3):
        line(5, press, 3, 1 + stage, roles(OWNER, MASTER), NUMBER, 30 + 10 * stage, 0)
    line(5, press, 2, 11, roles(OWNER, FOREMAN), SCRIPT, 2, 0)                       # the foreman's script
    line(5, press, 1, 14, roles(OWNER, HAND), POINTER, 4, (press + 3) % 5)           # its partner's script: of press two, press five

line(7, 1, 0, 0, 0, 0)                                                               # 0 a number, into slot 0
line(7, 3, 2, 0, roles(FOREMAN), 0)                                                  # 1 a pointer to a script, into slots 2 and 3
line(7, 4, 4, 0, roles(OWNER, HAND, FOREMAN, MASTER), roles(MASTER))                 # 2 a programme, into slot 4
line(7, 1, 1, 0, 0, 0)                                                               # 3 a number, into slot 1

line(8, READ, 2, ROW, 2, 0, 0, 0, 0)                                                 # 1 a hand reads the first dwell time
line(8, CHANGE, 0, ROW, 3, 3, HELD, 0, 0)                                            # 2 and enters it as the count
line(8, READ, 4, ROW, 0, 2, 0, 0, 0)                                                 # 3 the master takes a copy of the programme
line(8, ENABLE, 5, ROW, 1, HAND, 0, 0, 0)                                            # 4 opens the dwell times to the hands
line(8, READ, 6, ROW, 5, 1, 0, 0, 0)                                                 # 5 asks for the partner
line(8, GO, 7, SLOT, 2, roles(MASTER), 0, 0, 0)                                      # 6 goes there
line(8, RUN, 8, SLOT, 3, 0, 0, 0, 0)                                                 # 7 runs the script that lies there
line(8, GO, 9, ROW, PRESS_TWO, roles(MASTER), 0, 0, 0)                               # 8 comes back
line(8, DISABLE, 0, ROW, 0, HAND, 0, 0, 0)                                           # 9 takes the hands' role away below the programme
line(8, CHANGE, 0, ROW, 3, 0, NUMBER, 21, 0)                                         # 10 the foreman's script enters 21 pressings
line(8, CHANGE, 12, ROW, 3, 0, NUMBER, 15, 0)                                        # 11 a hand enters 15 pressings
line(8, READ, 0, ROW, 3, 0, 0, 0, 0)                                                 # 12 and looks at them

line(9, 0, roles(HAND), 1)
line(9, 0, roles(MASTER), 3)
line(9, 0, roles(FOREMAN), 10)
line(9, 0, roles(HAND), 11)

sheet.write("week.sheet")
