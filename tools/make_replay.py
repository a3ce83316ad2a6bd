#!/usr/bin/env python3
"""Makes a file of crates/replay/data: calls and what the oracle answers to them.

    tools/make_replay.py TOPIC ORACLE > crates/replay/data/TOPIC

TOPIC is leaves, mesh, sharpen, spread, preview, stl, curve, create or inputs: tools/replay/TOPIC.py says what it has, and how it is packed.
ORACLE is the checking build of the oracle (the unchanged Rust behind a text format). The file is the same in every run. What it has is
counted on standard error.
"""
import importlib, sys

importlib.import_module(f"replay.{sys.argv[1]}").main()
