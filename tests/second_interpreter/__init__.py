# SPDX-License-Identifier: Apache-2.0
"""A second interpreter of M, written from the rules of docs/LANGUAGE.md and not from the program's code: what tests compare the program with.

It is short and slow. `world` has sessions and accounts, `machine` commands and levels, `places` lines of routines, `expressions` values and
references, `reader` the grammar, `scopes` local variables, `texts` functions and patterns, `names` names of nodes as texts, `decimals` numbers.
`listings` says which globals and routines there are, `faults` where a fault was. `languages` says which forms each language has: 0 and 1 are the
program's; what is coming, as names, MERGE and $TEXT, is compared with GT.M, where GT.M has it."""
