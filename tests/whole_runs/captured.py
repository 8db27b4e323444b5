"""Captures of bytes on a bus: the spelling of a record, and its fields as Debian's `tshark` must read them."""
import subprocess

FIELDS = ("frame.time_epoch", "frame.len", "flexray.ch", "flexray.fcrc_err", "flexray.hcrc_err", "flexray.fes_err",
          "flexray.ppi", "flexray.nfi", "flexray.sfi", "flexray.stfi", "flexray.fid", "flexray.pl", "flexray.hcrc",
          "flexray.cc")
FILE_HEADER = bytes.fromhex("d4c3b2a1 0200 0400 00000000 00000000 08010000 d2000000")
INITIAL = {"A": 0xFEDCBA, "B": 0xABCDEF}


def division(bits, width, polynomial, register):
    """Returns the CRC of bits by the long division of the standard, one bit after another."""
    for bit in bits:
        feedback = bit ^ (register >> (width - 1) & 1)
        register = (register << 1 & ((1 << width) - 1)) ^ (polynomial if feedback else 0)
    return register


def bits_of(number, width):
    return [number >> place & 1 for place in range(width - 1, -1, -1)]


def header_crc(covered):
    return division(bits_of(covered, 20), 11, 0x385, 0x01A)


def frame_crc(data, channel):
    return division([bit for byte in data for bit in bits_of(byte, 8)], 24, 0x5D6DCB, INITIAL[channel])


def fault_of(data, channel):
    """Returns the error flag that is set: of a frame CRC, of a header CRC, of an end in a wrong place, or none."""
    header = int.from_bytes(data[:5], "big")
    if len(data) < 8 or len(data) != 8 + 2 * (header >> 17 & 0x7F):
        return "end"
    if header >> 6 & 0x7FF != header_crc(header >> 17 & 0xFFFFF):
        return "header"
    return "" if int.from_bytes(data[-3:], "big") == frame_crc(data[:-3], channel) else "frame"


def wanted(time, channel, data):
    """Returns the fields of a record that `tshark` must read."""
    fault = fault_of(data, channel)
    captured = data if fault == "end" else data[:-3]
    told = [f"{time // 1_000_000}.{time % 1_000_000:06}000", str(2 + len(captured)), str("AB".index(channel)),
            *(str(int(fault == name)) for name in ("frame", "header", "end"))]
    if len(captured) < 5:
        return told
    header = int.from_bytes(captured[:5], "big")
    told += [str(header >> place & 1) for place in (38, 37, 36, 35)]
    return told + [str(header >> 24 & 0x7FF), str(header >> 17 & 0x7F), str(header >> 6 & 0x7FF), str(header & 0x3F)]


def flag(word):
    return {"True": "1", "False": "0"}.get(word, word)


def read_by_tshark(capture):
    words = ["tshark", "-n", "-r", capture, "-T", "fields", "-E", "separator=,"]
    ran = subprocess.run([*words, *(word for field in FIELDS for word in ("-e", field))], capture_output=True,
                         text=True, check=True)
    return [[flag(word) for word in line.split(",")] for line in ran.stdout.splitlines()]


def alike(got, told):
    """Returns whether the fields agree. Of a record without a whole header only its own fields are compared."""
    if got[:6] != told[:6]:
        return False
    # `tshark` may print a number in hexadecimal.
    return all(int(word, 0) == int(number) for word, number in zip(got[6:], told[6:]))


ERROR_FLAGS = {"": 0, "frame": 0x10, "header": 0x08, "end": 0x04}


def record_of(time, channel, data):
    """Returns the record of bytes that came on a channel at a time in microseconds."""
    fault = fault_of(data, channel)
    captured = bytes([0x81 if channel == "B" else 0x01, ERROR_FLAGS[fault]]) + (data if fault == "end" else data[:-3])
    numbers = (time // 1_000_000, time % 1_000_000, len(captured), len(captured))
    return b"".join(number.to_bytes(4, "little") for number in numbers) + captured
