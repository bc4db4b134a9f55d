#!/usr/bin/env python3
"""Makes docs/pad.png: three people, one of them away, in a Chromium. It needs what `make check-pad` needs; COTPAD_LIB names the library."""
import pathlib
import sys
import tempfile

import needs

if lines := needs.missing():
    sys.exit("\n".join(f"picture: {line}" for line in lines))

from browser import Server, Tab, chromium, equal  # noqa: E402
from selenium.webdriver.common.keys import Keys  # noqa: E402

SIZE = 1280, 800


def write(tabs):
    """Some minutes of three people, after which the first one's tab is worth a look."""
    ann, bob, cas = tabs
    ann.insert("Tuesday, the garden\n\nWe meet at four by the old pear tree. Bring gloves, and something to drink.\n")
    equal(tabs)
    bob.type("\nBob: I can bring two spades and the long ladder.\n", at=len(bob.text))
    equal(tabs)
    cas.type("\nCas: tea for all of us, and a cake.\n", at=len(cas.text))
    equal(tabs)
    ann.type("Who takes the wheelbarrow home?", at=len(ann.text))
    equal(tabs)
    bob.type(Keys.DELETE * 4, at=bob.text.index("old "))
    equal(tabs)
    ann.press("Bob deleted old", "undo")
    equal(tabs)
    cas.type(" or five", at=cas.text.index(" by the"))
    equal(tabs)
    bob.press("Cas wrote five", "undo")
    equal(tabs)
    cas.type("rope and ", at=cas.text.index("the long"))
    equal(tabs)
    ann.type("Gloves are in the shed.\n", at=ann.text.index("\nBob"))
    equal(tabs)
    cas.press("Ann wrote shed.⏎", "undo")
    equal(tabs)
    ann.press("Cas undid Ann’s shed.⏎", "redo")
    equal(tabs)
    bob.put_caret(bob.text.index("spades"))
    ann.until(lambda: ann.cursors()[1] == ann.text.index("spades"))
    bob.away(True)
    bob.type("three ", at=bob.text.index("spades"))
    ann.type("rusty ", at=ann.text.index("wheelbarrow"))
    cas.put_caret(cas.text.index(", and a cake"))
    ann.until(lambda: ann.quiet and ann.cursors()[2] == ann.text.index(", and a cake"))
    ann.front().execute_cdp_cmd("Input.dispatchMouseEvent", {"type": "mouseMoved", "x": 500, "y": 650})


def main():
    target = needs.PAD.parents[1] / "docs" / "pad.png"
    with tempfile.TemporaryDirectory(prefix="pad.") as folder, chromium(*SIZE) as driver:
        server = Server(pathlib.Path(folder) / "folder")
        try:
            driver.execute_cdp_cmd("Emulation.setDeviceMetricsOverride",
                                   {"width": SIZE[0], "height": SIZE[1], "deviceScaleFactor": 1, "mobile": False})
            tabs = [Tab(driver, server.address) for _ in range(3)]
            write(tabs)
            tabs[0].front().execute_cdp_cmd("Emulation.setDeviceMetricsOverride",
                                            {"width": SIZE[0], "height": SIZE[1], "deviceScaleFactor": 1, "mobile": False})
            tabs[0].front().save_screenshot(str(target))
        finally:
            server.stop()
    print(f"{target}: {target.stat().st_size:,} bytes")


if __name__ == "__main__":
    main()
