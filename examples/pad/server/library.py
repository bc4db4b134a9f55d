"""The library's Python package. This file alone says where it comes from."""
import pathlib
import sys

sys.path.insert(0, str(pathlib.Path(__file__).resolve().parents[3] / "python" / "src"))

import cotpad  # noqa: E402

__all__ = ["cotpad"]
