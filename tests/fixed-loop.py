#!/usr/bin/env python3
"""Prints what a fixed loop takes: half a processor second of a quiet machine, most of it in memory, as that of a proof."""

import time

numbers = {}
for at in range(1500000):
    numbers[at * 7919 % 1000003] = at
print(time.process_time())
