"""Writes an input of `stem` to standard output: eight voices that sound, and so many waits of 65,535 ticks."""
import sys

REGISTERS = [
    (255, 0xFF, 0x00, 0x08, 0, 0, 0x00), (200, 0x5A, 0x34, 0x07, 0, 0, 0x01),
    (180, 0xA5, 0x01, 0x0A, 0, 0, 0x02), (160, 0x3C, 0x80, 0x05, 0, 0, 0x03),
    (140, 0xC3, 0x77, 0x09, 0, 0, 0x04), (120, 0x69, 0x10, 0x0C, 0, 0, 0x05),
    (100, 0x96, 0xF0, 0x03, 0, 0, 0x06), (80, 0x1E, 0x0F, 0x10, 0, 0, 0x07),
]


def main():
    fields = []
    for place in range(4096):
        byte = 0xFF if place == 4095 else ((place * 2654435761 >> 24) & 0xFE)
        fields += [(3, 2), (12, place), (8, byte)]
    for voice, registers in enumerate(REGISTERS):
        fields += [(3, 1), (4, 7), (8, 0x40 | voice)]
        for address, byte in enumerate(registers):
            fields += [(3, 1), (4, address), (8, byte)]
    fields += [(3, 1), (4, 8), (8, 0), (3, 1), (4, 7), (8, 0x80)]
    fields += [(3, 3), (16, 65535)] * int(sys.argv[1])
    fields += [(3, 0)]
    bits = ''.join(format(number, f'0{width}b') for width, number in fields)
    bits += '0' * (-len(bits) % 8)
    records = bytes(int(bits[i:i + 8], 2) for i in range(0, len(bits), 8))
    sys.stdout.buffer.write(bytes([0, 0x10, 0x98, 0x96, 0x80]) + records)


main()
