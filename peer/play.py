#!/usr/bin/env python3
"""Plays scripts and shows exchanges with a drive by the rules in docs/, and prints what `play` has to print.

Written from the documents alone, to have a second opinion: peer/play.py (SCRIPT | --image IMAGE COMMAND N)...
"""
import sys

PHASES = ["Data Out", "Unspecified Out", "Command", "Message Out",
          "Data In", "Unspecified In", "Status", "Message In"]


def table(path):
    rows = []
    for line in open(path):
        words = line.split("#")[0].split()
        if words:
            rows.append([int(word, 16) if word.startswith("0x") else int(word) for word in words])
    return rows


def refusal(row):
    kind, phase, _, parity, _ = row
    return 10 if kind > 4 else 11 if phase > 7 else 12 if parity > 1 else None


def wish(row):
    """The wish in words, and the Data In byte that it shows."""
    kind, phase, byte, parity, _ = row
    if refusal(row):
        return "Off", None
    quality = "bad parity" if parity else "good parity"
    if kind == 1:
        return f"Back {byte:02x}h, {quality}", None
    if kind == 2:
        return f"Hold {PHASES[phase]}", None
    if kind == 3:
        if phase < 4:
            return f"Req {PHASES[phase]}", None
        return f"Req {PHASES[phase]} {byte:02x}h, {quality}", byte if phase == 4 else None
    return ("Off", "Go")[kind == 4], None


def chain(rows):
    """The numbers of the chain's records, and whether its last one ends it wrongly."""
    numbers, at = [], 1 if rows else 0
    while at:
        numbers.append(at)
        following = rows[at - 1][4]
        if following == 0:
            return numbers, None
        if not at < following <= len(rows):
            return numbers, at
        at = following
    return numbers, None


def hexdump(data):
    for start in range(0, len(data), 16):
        part = data[start:start + 16]
        halves = [" ".join(f"{byte:02x}" for byte in part[k:k + 8]).ljust(23) for k in (0, 8)]
        text = "".join(chr(byte) if 0x20 <= byte < 0x7f else "." for byte in part)
        print(f"{start:05x}  {halves[0]}  {halves[1]}  |{text}|")


def play_script(path):
    everything = table(path)
    rows = everything[:4096]
    print(f"{path}: {len(everything)} rows, of which {len(rows)} count")
    numbers, wrong = chain(rows)
    if wrong:
        print(f"chain: refused (13), the next of record {wrong} ends it wrongly")
    else:
        print(f"chain: {len(numbers)} records, and it ends as it should")
    data = []
    for number in numbers:
        row = rows[number - 1]
        words, byte = wish(row)
        why = f", for the row makes no record ({refusal(row)})" if refusal(row) else ""
        print(f"{number:>4}  {words}{why}")
        if byte is not None:
            data.append(byte)
    print(f"put up in Data In: {len(data)} bytes")
    hexdump(data)


MESSAGES = {0x00: "Command Complete", 0x02: "Save Data Pointer", 0x04: "Disconnect", 0x80: "Identify"}
STATUS = {0x00: "good", 0x02: "check condition"}


def answer(image, command):
    """The data and the status that a drive has for a command."""
    blocks = min(len(image) // 512, 4096)
    if command[0] == 0x00:
        return b"", 0x00
    if command[0] == 0x08:
        first = (command[1] % 32) * 65536 + command[2] * 256 + command[3]
        count = command[4] or 256
        if first + count <= blocks:
            return image[512 * first:512 * (first + count)], 0x00
    return b"", 0x02


def message(byte):
    print(f"Req Message In {byte:02x}h, good parity: {MESSAGES[byte]}")


def exchange(path, command, after):
    image = open(path, "rb").read()
    print(f"{path}: {min(len(image) // 512, 4096)} blocks count; command {command}, a break after each {after} bytes")
    print("Off, chosen with ATN off")
    command = bytes.fromhex(command)
    for byte in command:
        print(f"Req Command, sent {byte:02x}h")
    data, status = answer(image, command)
    step = int(after) or max(len(data), 1)
    for start in range(0, len(data), step):
        if start:
            message(0x02)
            message(0x04)
            print("Go")
            print(f"Back {(1 << 2) | (1 << 7):02x}h, good parity")
            message(0x80)
        run = data[start:start + step]
        print(f"Req Data In, {len(run)} bytes")
        hexdump(run)
    print(f"Req Status {status:02x}h, good parity: {STATUS[status]}")
    message(0x00)
    print("Go")
    print("Off")
    print(f"data: {len(data)} bytes")
    hexdump(data)


def main(words):
    words = iter(words)
    for word in words:
        if word == "--image":
            exchange(next(words), next(words), next(words))
        else:
            play_script(word)


if __name__ == "__main__":
    main(sys.argv[1:])
