#!/usr/bin/env python3
"""Writes the sheet of the shipped press house, crates/console/data/house.sheet.

Five presses and an office. Roles: 0 owner (the top), 1 hand, 2 foreman, 3 master, 4 sampler, 5 fitter, drawn by the pairs
(1,2) (2,3) (4,3) (5,3)."""
from sheets import *

OFFICE = 5

sheet = Sheet()
line = sheet.line


# the policies of presses and of the office, by their least sets
line(1, roles(HAND, SAMPLER, FITTER))
line(1, roles(MASTER))

# the master opens and closes the samples to samplers; the office may be opened to the foreman
line(2, 0, 0, roles(MASTER), SAMPLER)
line(2, 0, 1, roles(MASTER), SAMPLER)
line(2, 1, 0, roles(MASTER), FOREMAN)

for press in range(5):
    line(3, 0)
line(3, 1)

paths = [
    [(7, roles(HAND))],                                             # 0 the programme
    [(7, roles(HAND)), (8, roles(MASTER))],                         # 1 the membrane limit
    [(7, roles(HAND)), (9, roles(HAND))],                           # 2 the pressure
    [(7, roles(HAND)), (10, roles(HAND))],                          # 3 the week
    [(7, roles(HAND)), (10, roles(HAND)), (1, roles(HAND))],        # 4 its first day
    [(7, roles(HAND)), (11, roles(FOREMAN))],                       # 5 the rinsing script
    [(12, roles(HAND, SAMPLER))],                                   # 6 the samples
    [(12, roles(SAMPLER)), (1, roles(SAMPLER))],                    # 7 the first sample
    [(14, roles(HAND))],                                            # 8 where the press reports
    [(5, roles(MASTER))],                                           # 9 the reports
    [(5, roles(MASTER)), (1, roles(MASTER))],                       # 10 the first report
    [(13, roles(FITTER))],                                          # 11 the hours since the last service
]
for path, steps in enumerate(paths):
    for label, roleset in steps:
        line(4, path, label, roleset)

for press in range(5):
    line(5, press, 1, 7, roles(OWNER, HAND), TREE, 0, 0)
    line(5, press, 2, 8, roles(OWNER, MASTER), NUMBER, 1900, 0)
    line(5, press, 2, 9, roles(OWNER, HAND), NUMBER, 12 + press, 0)
    line(5, press, 2, 10, roles(OWNER, HAND), TREE, 0, 0)
    for day in range(1, 8):
        line(5, press, 3, day, roles(OWNER, HAND), NUMBER, 600 + 50 * day + 10 * press, 0)
    line(5, press, 2, 11, roles(OWNER, FOREMAN), SCRIPT, 2, 0)
    line(5, press, 1, 12, roles(OWNER, HAND, SAMPLER), TREE, 0, 0)
    line(5, press, 2, 1, roles(OWNER, HAND, SAMPLER), NUMBER, 34, 0)
    line(5, press, 1, 13, roles(OWNER, FITTER), NUMBER, 120, 0)
    line(5, press, 1, 14, roles(OWNER, HAND), POINTER, 10, OFFICE)
line(5, OFFICE, 1, 5, roles(OWNER, MASTER), TREE, 0, 0)
for press in range(5):
    line(5, OFFICE, 2, 1 + press, roles(OWNER, MASTER), NUMBER, 0, 0)

# a day in two stages, the second at the pressure that the day had; a report with the limit beside it
line(6, 0, 1, 1, roles(OWNER, HAND), NUMBER, 800, 0)
line(6, 0, 1, 2, roles(OWNER, HAND), HELD, 0, 0)
line(6, 1, 1, 20, roles(OWNER, MASTER), HELD, 0, 0)
line(6, 1, 1, 21, roles(OWNER, MASTER), NUMBER, 1900, 0)

line(7, 1, 0, 0, 0, 0)                                              # 0 a number into slot 0
line(7, 2, 1, 0, 0, 0)                                              # 1 a script of the presses into slot 1
line(7, 3, 2, 1, roles(MASTER), 0)                                  # 2 a pointer to the office into slots 2 and 3
line(7, 4, 4, 0, roles(OWNER, HAND), roles(HAND))                   # 3 a tree of the presses into slot 4
line(7, 1, 5, 0, 0, 0)                                              # 4 a number into slot 5

line(8, READ, 2, ROW, 2, 0, 0, 0, 0)                                # 1 a hand reads the pressure
line(8, CHANGE, 0, ROW, 4, 0, HELD, 0, 0)                           # 2 and plans the first day with it
line(8, CHANGE, 4, ROW, 1, 0, NUMBER, 1900, 0)                      # 3 the master sets the limit
line(8, ENABLE, 5, ROW, 6, SAMPLER, 0, 0, 0)                        # 4 opens the samples
line(8, DISABLE, 0, ROW, 6, SAMPLER, 0, 0, 0)                       # 5 and closes them
line(8, FORK, 7, 0, 0, 8, 0, 0, 0)                                  # 6 rinsing goes two ways
line(8, READ, 0, ROW, 2, 0, 0, 0, 0)                                # 7 looks at the pressure here
line(8, GO, 9, ROW, 1, roles(HAND), 0, 0, 0)                        # 8 goes to the second press
line(8, CHANGE, 0, ROW, 2, 0, NUMBER, 0, 0)                         # 9 and takes the pressure off
line(8, RUN, 11, ROW, 5, 0, 0, 0, 0)                                # 10 the foreman rinses
line(8, READ, 12, ROW, 3, 3, 0, 0, 0)                               # 11 takes the week along
line(8, GO, 13, ROW, 1, roles(FOREMAN), 0, 0, 0)                    # 12 to the second press
line(8, CHANGE, 0, ROW, 3, 3, HELD, 4, 0)                           # 13 and plans it there
line(8, READ, 15, ROW, 7, 0, 0, 0, 0)                               # 14 the sampler reads a sample
line(8, CHANGE, 0, ROW, 7, 0, NUMBER, 35, 0)                        # 15 and enters the next
line(8, READ, 17, ROW, 8, 2, 0, 0, 0)                               # 16 the master asks where to report
line(8, READ, 18, ROW, 1, 0, 0, 0, 0)                               # 17 reads the limit
line(8, GO, 19, SLOT, 2, roles(MASTER), 0, 0, 0)                    # 18 goes there
line(8, CHANGE, 0, SLOT, 3, 4, HELD, 0, 0)                          # 19 and reports it
line(8, READ, 21, ROW, 11, 0, 0, 0, 0)                              # 20 the fitter reads the hours
line(8, CHANGE, 0, ROW, 11, 0, NUMBER, 0, 0)                        # 21 and begins anew
line(8, CHANGE, 0, ROW, 4, 0, TEMPLATE, 0, 0)                       # 22 a hand plans the first day in stages

line(9, 0, roles(HAND), 1)
line(9, 0, roles(MASTER), 3)
line(9, 0, roles(HAND), 6)
line(9, 0, roles(FOREMAN), 10)
line(9, 0, roles(SAMPLER), 14)
line(9, 0, roles(MASTER), 16)
line(9, 0, roles(FITTER), 20)
line(9, 0, roles(HAND), 22)

sheet.write("house.sheet")
