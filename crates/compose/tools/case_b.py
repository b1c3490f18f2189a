#!/usr/bin/env python3
"""Case B of document 01 with the label 7 (request 3) as bytes and as text, made from "Run files" alone: compose/stdin, compose/stdout, list/stdin and list/stdout.
Run it in crates/."""
import struct


def record(kind, node=0, address=0, ack=0, hold=0, label=0, header=0, data=0):
    return bytes([kind, node, address, ack, hold, label, 0, 0]) + struct.pack('<II', header, data)


def block(number, n, records):
    body = struct.pack('<I', number) + bytes([len(records), n]) + bytes(8) + b''.join(records)
    body += bytes(510 - len(body))
    return body + struct.pack('<H', sum(b * (i + 1) for i, b in enumerate(body)) % 65521)


sends = [record(1, 0, 1, label=7, header=5, data=6), record(2, 0)] + [record(4, 0), record(5)] * 6
answers = [record(8), record(3, 1, ack=1)] + [record(4, 1), record(5)] * 3 + [record(9)] * 2
file = block(0, 2, sends + answers)

written = '# case B of document 01\nnodes 2\nrequest 0 1 0x5 6  label 7   # to node 1\narbitrate 0\n\n'
written += 'clock 0\npass\n' * 5 + 'clock 0\npass * 1\ngrant\nrespond 1 1\n' + 'clock 1\npass\n' * 3 + 'gap * 2\n'
printed = 'nodes 2\nrequest 0 1 5 6 label 7\narbitrate 0\n' + 'clock 0\npass\n' * 6 + 'grant\nrespond 1 1\n' + 'clock 1\npass\n' * 3 + 'gap\n' * 2

open('compose/stdin', 'w').write(written)
open('compose/stdout', 'wb').write(file)
open('list/stdin', 'wb').write(file)
open('list/stdout', 'w').write(printed)
