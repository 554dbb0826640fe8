#!/usr/bin/env python3
"""Writes the input and the expected output of crates/fnv_vectors: published 32-bit FNV-1a vectors, each recomputed here from the algorithm's text."""
from lib.kept import keep

PUBLISHED = {
    "": 0x811C9DC5, "a": 0xE40C292C, "b": 0xE70C2DE5, "c": 0xE60C2C52, "d": 0xE10C2473, "e": 0xE00C22E0,
    "f": 0xE30C2799, "fo": 0x6222E842, "foo": 0xA9F37ED7, "foob": 0x3F5076EF, "fooba": 0x39AAA18A, "foobar": 0xBF9CF968,
}
# longer texts, recomputed only
TEXTS = ["chongo was here!", "127.0.0.1", "http://www.isthe.com/chongo/index.html", "~" * 63, "\u00e9\u20ac"]


def fnv1a(data):
    h = 0x811C9DC5
    for byte in data:
        h = (h ^ byte) * 0x01000193 & 0xFFFFFFFF
    return h


for text, value in PUBLISHED.items():
    assert fnv1a(text.encode()) == value, text
lines = [*PUBLISHED, *TEXTS]
keep({
    "crates/fnv_vectors/stdin": "".join(line + "\n" for line in lines),
    "crates/fnv_vectors/stdout": "".join(f"{fnv1a(line.encode()):08x}\n" for line in lines),
})
