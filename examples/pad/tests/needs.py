#!/usr/bin/env python3
"""Says what the tests of the pad need and isn't installed, one line for each thing; the status is 1 then."""
import importlib.util
import pathlib
import shutil
import sys

PAD = pathlib.Path(__file__).resolve().parents[1]
sys.path.insert(0, str(PAD))

MODULES = {"aiohttp": "python3-aiohttp", "pytest": "python3-pytest", "selenium": "python3-selenium"}
PROGRAMS = {"chromedriver": "chromium-driver", "node": "nodejs"}
BROWSERS = ("chromium", "chromium-browser", "google-chrome")


def browser():
    """The path of a Chromium, if there is one."""
    return next(filter(None, map(shutil.which, BROWSERS)), None)


def missing():
    lines = [f"{sys.executable} has no module {module} (Debian: apt-get install {package}, and PYTHON=/usr/bin/python3)"
             for module, package in MODULES.items() if importlib.util.find_spec(module) is None]
    lines += [f"{program} isn't installed (Debian: apt-get install {package})"
              for program, package in PROGRAMS.items() if not shutil.which(program)]
    if not browser():
        lines.append("chromium isn't installed (Debian: apt-get install chromium)")
    try:
        import server.library  # noqa: F401
    except (ImportError, OSError) as why:
        lines.append(f"the library can't be loaded ({why}): call `make quick-lib` or `make lib`, and name it by COTPAD_LIB")
    return lines


if __name__ == "__main__":
    lines = missing()
    for line in lines:
        print(f"check-pad: {line}", file=sys.stderr)
    sys.exit(bool(lines))
