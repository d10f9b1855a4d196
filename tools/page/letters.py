"""Bytes as letters that may be within quotes in a script: two letters of 91 carry 13 bits, or 14, as in basE91. Base64 needs 9 % more.

`DECODER` is a function of JavaScript that returns the bytes of such a text.
"""
from __future__ import annotations


# The printing characters of ASCII, except the blank, `"`, `<` and a backslash, which may not be in a string of a script in place.
LETTERS = "".join(it for it in map(chr, range(33, 127)) if it not in '"<\\')
# Two letters have 8281 values, 89 more than 13 bits: a pair whose 13 bits are at most 88 can carry a 14th.
MAX_WITH_14 = 88
DECODER = """(text) => {
const bytes = new Uint8Array(Math.ceil(text.length * 7 / 8));
let [first, value, bits, length] = [-1, 0, 0, 0];
for (let at = 0; at < text.length; at += 1) {
const code = text.charCodeAt(at);
const digit = code - 33 - (code > 34) - (code > 60) - (code > 92);
if (first < 0) {
first = digit;
continue;
}
const pair = first + 91 * digit;
first = -1;
value |= pair << bits;
bits += (pair & 8191) > 88 ? 13 : 14;
for (; bits > 7; bits -= 8) {
bytes[length] = value & 255;
length += 1;
value >>= 8;
}
}
if (first >= 0) {
bytes[length] = value | (first << bits);
length += 1;
}
return bytes.subarray(0, length);
}"""


def encode(content: bytes) -> str:
    """Returns bytes as letters."""
    pairs: list[str] = []
    value = bits = 0
    for byte in content:
        value |= byte << bits
        bits += 8
        if bits > 13:
            bit_count = 13 if value & 8191 > MAX_WITH_14 else 14
            pairs.append(encode_pair(value & ((1 << bit_count) - 1)))
            value >>= bit_count
            bits -= bit_count
    if bits:
        last = encode_pair(value)
        pairs.append(last if bits > 7 or value > 90 else last[:1])
    return "".join(pairs)


def encode_pair(number: int) -> str:
    """Returns the two letters of a number."""
    return LETTERS[number % 91] + LETTERS[number // 91]
