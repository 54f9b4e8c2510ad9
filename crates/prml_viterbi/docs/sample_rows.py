#!/usr/bin/env python3
"""Writes src/sample_rows.rt: python3 docs/sample_rows.py > src/sample_rows.rt, then rt fmt."""


def row(levels):
    """The eight clean samples by ten levels, where a bit 1 is the low level and the first two stand before the samples'."""
    low = [levels >> k & 1 for k in range(10)]
    return [32 * (low[k] - low[k + 2]) for k in range(8)]


print("//! Clean samples by their levels, written by docs/sample_rows.py.")
print()
print("/// The clean samples of eight places by ten levels, one row after another: a bit 1 is the low level, and the lowest two bits")
print("/// are those of the two places before.")
samples = [sample for levels in range(1024) for sample in row(levels)]
print(f"pub(crate) static SAMPLE_ROWS: [i8; {len(samples)}] = [")
for k in range(0, len(samples), 24):
    print("    " + ", ".join(str(sample) for sample in samples[k : k + 24]) + ",")
print("];")
