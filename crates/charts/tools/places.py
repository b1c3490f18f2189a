#!/usr/bin/env python3
"""places.py specs|proofs: prints the clause tables of specs/Places.antt (what a mode remembers, and the modes by their places) or of proofs/Places.antt (a mode is made of
its place and what it remembers). Run it and paste when a mode is added (specs/Modes.antt has the order)."""
import sys

MODES = [("Rest", ""), ("AwaitAck", ""), ("AckBody", ""), ("AckEnd", "(Some a)"), ("AckEnd", "None"), ("Opened", ""), ("Addressed", ""), ("HeadOwn", ""),
         ("HeadAll", ""), ("BodyOwn", "h"), ("BodyAll", "h"), ("TailOwn", "h (Some d)"), ("TailOwn", "h None"), ("TailAll", "h (Some d)"), ("TailAll", "h None"),
         ("Wait", ""), ("Owed", ""), ("Sending", "k"), ("Told", ""), ("Answering", ""), ("Acking", "k a b"), ("Holding", ""), ("Spurious", ""), ("Listening", ""), ("Asked", "")]
# AckEnd, TailOwn and TailAll count as two: what the second part of the mode has, where the letter stands in it
WHOLE = {"AckEnd": "x", "TailOwn": "h x", "TailAll": "h x"}
PART = {"a": "good_ack x", "d": "good_datum x"}

def pattern(mode, fields):
    return f"({mode} {fields})" if fields else mode

NAMES = [pattern(m, x) for m, x in MODES]

def has(letter, fields):
    return letter in fields.replace("(", " ").replace(")", " ").split()

def clauses(name, letter, other):
    for mode in dict(MODES):
        fields = next(x for m, x in MODES if m == mode)
        if mode in WHOLE:
            value = PART[letter] if letter in PART and has(letter, fields) else letter if has(letter, fields) else other
            fields = WHOLE[mode]
        else:
            value = letter if has(letter, fields) else other
        print(f"{name} {pattern(mode, fields)} = {value}")

def accessor(name, kind, letter, other, doc):
    print((f"-- {doc}\n" if doc else "") + f"abbrev pub {name} : Mode → {kind}")
    clauses(name, letter, other)
    print()

def specs():
    accessor("step_in", "ℕ", "k", "0", "the step, acknowledgement, hold, header and datum that a mode remembers")
    accessor("ack_in", "ℕ", "a", "0", "")
    accessor("hold_in", "Bool", "b", "false", "")
    accessor("head_in", "Head", "h", "no_head", "")
    accessor("datum_in", "ℕ", "d", "0", "")
    print("-- the modes by their places\nabbrev pub modes : ℕ → ℕ → Bool → Head → ℕ → List Mode\nmodes k a b h d =\n    " + " ∷ ".join(NAMES) + " ∷ []")

def proofs():
    print("pub mode_at_lem : (m : Mode) → m ≡ getD (modes (step_in m) (ack_in m) (hold_in m) (head_in m) (datum_in m)) (placeOf m) Spurious")
    for n in NAMES: print(f"mode_at_lem {n} = refl")
    print("\npub place_lt : (m : Mode) → placeOf m < 25")
    for n in NAMES: print(f"place_lt {n} = lit< tt")

{"specs": specs, "proofs": proofs}[sys.argv[1]]()
