#!/usr/bin/env python3
"""edk2-fields.py TXT HEADER REGION: what edk2's GenCfgOpt.py wrote of one region. Prints `txt OFFSET LENGTH NAME BYTES` for each field of
the .txt, `header OFFSET LENGTH NAME` for each of the header (whose offsets count from another place); REGION gets the region's bytes."""
import re
import sys


def number(text):
    return int(text, 16 if text.startswith("0x") else 10)


def bytes_of(value, length):
    listed = re.fullmatch(r"\{(.*)\}", value.strip())
    if listed:
        given = bytes(number(each.strip()) for each in listed.group(1).split(","))
        return given + bytes(length - len(given))
    return number(value.strip()).to_bytes(length, "little")


def main():
    region = bytearray()
    for line in open(sys.argv[1], encoding="ascii"):
        field = re.fullmatch(r"(\w+)\.(\w+)\|DEFAULT\|(0x[0-9A-F]+)\|(\w+)\|(.+)", line.strip())
        if not field:
            continue
        offset, length = number(field.group(3)), number(field.group(4))
        value = bytes_of(field.group(5), length)
        region[offset:offset + length] = value
        print(f"txt 0x{offset:04X} {length} {field.group(2)} {value.hex(' ').upper()}")
    text = open(sys.argv[2], encoding="ascii").read()
    fields = re.compile(r"/\*\* Offset (0x[0-9A-F]+)(?:(?!\*\*/).)*\*\*/\s+UINT(\d+)\s+(\w+)(?:\[(\d+)\])?;", re.S)
    for offset, bits, name, count in fields.findall(text):
        print(f"header 0x{number(offset):04X} {int(bits) // 8 * int(count or 1)} {name}")
    with open(sys.argv[3], "wb") as to:
        to.write(region)


main()
