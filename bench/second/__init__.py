"""The program once more: the same language and the same answers, written from the rules alone.

It shares no code with the program and takes other ways where it can: terms are kept as lists in
postorder, a morphism renames the atoms of a polynomial that is already made, and a polynomial is
a dictionary from monomials to coefficients. `program.run(words, data)` gives the bytes and the
status.
"""
