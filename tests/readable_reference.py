#!/usr/bin/env python3
"""A second reading of readable memory texts, from the rules of docs/MEMORY.md, by regular expressions and ipaddress.

    tests/readable_reference.py FILE ..      # prints the memory text that each says, or why it is refused
"""
import ipaddress
import re
import struct
import sys

TOKEN = re.compile(rb'(?:[ \t\r\n]|(?:#|//)[^\n]*)*("[^"\n]*"?|[^ \t\r\n]+)?')
NAMES = (b"memory", b"args", b"sram", b"sdram", b"scratch")


class Refused(Exception):
    pass


def tokens(text):
    found, at = [], 0
    while at < len(text):
        it = TOKEN.match(text, at)
        if it[1] is None:
            break
        found.append(it[1])
        at = it.end()
    return found


def number(token):
    if re.fullmatch(rb"0x[0-9a-fA-F]{1,8}", token):
        return int(token[2:], 16)
    if re.fullmatch(rb"0|[1-9][0-9]*", token) and int(token) < 2**32:
        return int(token)
    raise Refused("number")


def address(kind, token):
    try:
        return kind(token.decode()).packed if b"%" not in token else None
    except ValueError:
        return None


def escaped(it):
    plain = {b"n": b"\n", b"r": b"\r", b"t": b"\t", b"\\": b"\\"}
    if it[1] in plain:
        return plain[it[1]]
    if re.fullmatch(rb"x[0-9a-fA-F]{2}", it[1]):
        return bytes([int(it[1][1:], 16)])
    raise Refused("escape")


def data(token):
    if token[:1] == b'"':
        if len(token) < 2 or token[-1:] != b'"':
            raise Refused("open")
        return re.sub(rb"\\(x[0-9a-fA-F]{2}|.|$)", escaped, token[1:-1], flags=re.S)
    for kind in (ipaddress.IPv4Address, ipaddress.IPv6Address):
        if address(kind, token):
            return address(kind, token)
    if re.fullmatch(rb"[0-9a-fA-F]{2}([:-][0-9a-fA-F]{2}){5}", token):
        return bytes.fromhex(re.sub(rb"[:-]", b"", token).decode())
    digits = token[2:] if token[:2] == b"0x" else token
    if not re.fullmatch(rb"(?:[0-9a-fA-F]{2})+", digits):
        raise Refused("bytes")
    return bytes.fromhex(digits.decode())


def word(token):
    if re.fullmatch(rb"[0-9a-fA-F]{8}", token):
        return int(token, 16)
    found = address(ipaddress.IPv4Address, token)
    return int.from_bytes(found, "big") if found else number(token)


def front(left):
    """The tokens up to the next name, taken off."""
    found = []
    while left and left[0] not in NAMES:
        found.append(left.pop(0))
    return found


def block(left, sizes):
    name = left.pop(0)
    if name not in NAMES[2:]:
        raise Refused("nowhere")
    place = left.pop(0) if left else b""
    at = number(place[:-1] if place.endswith(b":") else place)
    held = b"".join(map(data, front(left)))
    unit = 8 if name == b"sdram" else 4
    held += bytes(-len(held) % unit)
    if at + len(held) // unit > (512 if name == b"scratch" else sizes[name == b"sdram"]):
        raise Refused("outside")
    return name.decode(), at, unit, held


def memory_text(text):
    left, sizes, words = tokens(text), None, []
    if left[:1] == [b"memory"]:
        if len(left) < 3:
            raise Refused("number")
        sizes = [number(left[1]), number(left[2])]
        if max(sizes) > 65536:
            raise Refused("large")
        del left[:3]
    if left[:1] == [b"args"]:
        left.pop(0)
        words = [word(it) for it in front(left)]
        if len(words) > 8:
            raise Refused("many")
    lines, need = [], {"sram": 0, "sdram": 0, "scratch": 0}
    while left:
        name, at, unit, held = block(left, sizes or (65536, 65536))
        need[name] = max(need[name], at + len(held) // unit)
        for k in range(0, len(held), 32):
            part = held[k:k + 32]
            lines.append(f"{name} {at + k // unit}" + "".join(" %08x" % it for it in struct.unpack(f">{len(part) // 4}I", part)))
    sram, sdram = sizes or (need["sram"], need["sdram"])
    return "\n".join([f"memory {sram} {sdram}", "args" + "".join(" %08x" % it for it in words), *lines, ""])


if __name__ == "__main__":
    for name in sys.argv[1:]:
        print("==", name)
        with open(name, "rb") as it:
            try:
                print(memory_text(it.read()))
            except Refused as why:
                print("refused:", why)
