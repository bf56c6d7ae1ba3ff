# SPDX-License-Identifier: Apache-2.0
"""Tests run over the package of this folder, unless it is installed."""
import importlib.util
import sys
from pathlib import Path

if importlib.util.find_spec("shelfpigeon") is None:
    sys.path.insert(0, str(Path(__file__).resolve().parents[1]))
