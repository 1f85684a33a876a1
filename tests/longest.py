#!/usr/bin/env python3
"""Puts the longest requests through the driver, and compares the answers with the other implementation's: a history of 1,023 versions and a
lookup of the last, written and checked, what is too long for the driver's sample, and entries and tables at their bounds and past them."""
import collections
import sys

sys.dont_write_bytecode = True
import cases
import driver
import server_cases

CASES = [*cases.longest(), *server_cases.longest()]
got = driver.answers([driver.call_request(call, values) for call, values, _ in CASES])
for (call, _, expected), line in zip(CASES, got):
    if line != expected:
        print(f"{call}: expected {expected[:60]}, and the driver answered {line[:60]}")
for call, many in collections.Counter(call for call, _, _ in CASES).items():
    print(f"{call}: {many} requests")
sys.exit(0 if got == [expected for _, _, expected in CASES] else 1)
