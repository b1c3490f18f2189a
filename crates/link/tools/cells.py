#!/usr/bin/env python3
"""cells.py: the printed table (`table`, or the model's) on standard input to the constant of src/table.rt on standard output. Run it and paste when a rule changes:
specs/Reading.antt has the encoding (`code`), and the check of link says whether the constant is the rules'."""
import sys

WORDS = ["-", "won", "lost", "sent", "ack", "miss", "drop", "good", "dcrc", "broad"]
MODES = ["Rest", "AwaitAck", "AckBody", "AckEnd with a good Ack", "AckEnd with none", "Opened", "Addressed", "HeadOwn", "HeadAll", "BodyOwn", "BodyAll",
         "TailOwn with good data", "TailOwn with bad data", "TailAll with good data", "TailAll with bad data", "Wait", "Owed", "Sending", "Told", "Answering",
         "Acking", "Holding", "Spurious", "Listening"]

rows = [line.split() for line in sys.stdin]
print(f"const CELLS: [u16; {sum(len(row) // 3 for row in rows)}] = [")
for mode, row in zip(MODES, rows, strict=True):
    print(f"    // {mode}")
    for place, word, pends in zip(row[0::3], row[1::3], row[2::3], strict=True):
        print(f"    {int(place) + 32 * WORDS.index(word) + 512 * int(pends)},")
print("];")
