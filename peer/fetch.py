#!/usr/bin/env python3
"""Says what `fetch` has to print, from the rules of the drive and the breaker alone and without a chip:

    peer/fetch.py [--pio|--dma].. IMAGE ADDRESS BLOCK COUNT [BREAK-AFTER]
"""
import sys
sys.dont_write_bytecode = True
from play import MESSAGES, answer, hexdump

WAYS = {"--pio": "data by reads and writes", "--dma": "data by DMA"}


def message(byte):
    print("INT 02h, bus service: Message In")
    print(f"    message {byte:02x}h, {MESSAGES[byte]}")
    print("INT 01h, function complete: message accepted")


def fetch(way, image, address, block, count, after):
    print(f"selecting station {address} without ATN, {WAYS[way]}")
    print(f"INT 01h, function complete: station {address} is connected")
    command = bytes([0x08, block >> 16, block >> 8 & 255, block & 255, count, 0])
    print("INT 02h, bus service: Command")
    print("    sending", command.hex(" "))
    data, status = answer(image, command)
    assert status == 0, "the example is one that succeeds"
    step = after or len(data)
    for start in range(0, len(data), step):
        if start:
            message(0x02)
            message(0x04)
            print("INT 04h, disconnected: the drive lets go in mid-record")
            print(f"INT 10h, reselected by station {address}")
            message(0x80)
        print("INT 02h, bus service: Data In")
        print(f"    {len(data[start:start + step])} bytes in Data In")
    print("INT 02h, bus service: Status")
    print(f"    status {status:02x}h, good")
    message(0x00)
    print("INT 04h, disconnected: the drive is done")
    print(f"record: {len(data)} bytes")
    hexdump(data)


def main(words):
    ways = [word for word in words if word in WAYS] or ["--pio"]
    path, *numbers = [word for word in words if word not in WAYS]
    address, block, count, *after = map(int, numbers)
    image = open(path, "rb").read()
    for way in ways:
        fetch(way, image, address, block, count, after[0] if after else 0)


main(sys.argv[1:])
