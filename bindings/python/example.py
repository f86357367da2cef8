"""Plans the sample order, or the order in the file that is named, or the text in it with M named before, and prints its
build as the printer does: example.py, example.py ORDER or example.py M TEXT."""

import sys
from pathlib import Path

from jefkantu import Order, Refused, Task, plan, read_build, read_text, write_order

SAMPLE = Order(4, [Task(2, 10, 10, 4), Task(1, 14, 13, 4), Task(1, 14, 13, 4)])

try:
    file = Path(sys.argv[-1]).read_bytes() if len(sys.argv) > 1 else write_order(SAMPLE)
    order = read_text(int(sys.argv[1]), file) if len(sys.argv) > 2 else file
    print(read_build(order, plan(order)), end="")
except Refused as refusal:
    sys.exit(str(refusal))
