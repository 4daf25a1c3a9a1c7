"""The ISO 13239 CRC as document 004, Annex A, computes it (CRC_B)."""


def crc(data):
    """Preset FFFF, least significant bit of each byte first, complemented at the end."""
    register = 0xFFFF
    for byte in data:
        step = byte ^ (register & 0xFF)
        step = (step ^ (step << 4)) & 0xFF
        register = (register >> 8) ^ (step << 8) ^ (step << 3) ^ (step >> 4)
        register &= 0xFFFF
    return register ^ 0xFFFF
