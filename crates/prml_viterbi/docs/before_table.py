"""Prints the table BEFORE of src/trellis.rt.

For each pair of choices of a step, one word: at each state's code, five bits with the code of the
state before it. Bit 0 of the pair: run three of the low level came from run two. Bit 1: run three of
the high level came from run three.
"""

LOW_THREE, LOW_TWO, LOW_ONE, HIGH_ONE, HIGH_TWO, HIGH_THREE = (5 * state for state in range(6))

for choices in range(4):
    before = {
        LOW_THREE: LOW_TWO if choices & 1 else LOW_THREE,
        LOW_TWO: LOW_ONE,
        LOW_ONE: HIGH_THREE,
        HIGH_ONE: LOW_THREE,
        HIGH_TWO: HIGH_ONE,
        HIGH_THREE: HIGH_THREE if choices & 2 else HIGH_TWO,
    }
    print(f"{sum(code << state for state, code in before.items()):#x}")
