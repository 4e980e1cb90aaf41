"""What tools/contracts, tools/figures, tools/map and tools/options share: pages that have parts which a tool writes."""
import os
import sys
from pathlib import Path

ROOT = os.path.dirname(os.path.dirname(os.path.abspath(__file__)))


def write(paths, page_of):
    """Writes these pages as the sources are, or with the word --check none, unless UBTOOL_WRITE is 1. Of a path and its text,
    `page_of` gives the page and its faults, and a page with a fault is not written. The faults are printed, and with --check
    that a page is not as the sources are; the status of the tool is 1 then."""
    only_checks, status = sys.argv[1:2] == ["--check"] and os.environ.get("UBTOOL_WRITE") != "1", 0
    for path in paths:
        text = Path(path).read_text(encoding="utf-8")
        page, faults = page_of(path, text)
        if only_checks and page != text:
            faults = [*faults, f"it is not as the sources are: tools/{os.path.basename(sys.argv[0])} writes it"]
        for fault in faults:
            print(f"{path}: {fault}")
        if page != text and not faults:
            Path(path).write_text(page, encoding="utf-8")
        status |= bool(faults)
    return int(status)
