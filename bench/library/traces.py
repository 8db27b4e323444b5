"""Traces of several kinds, which bench/audit_speed describes."""
HOST, WINDOWS, CYCLES, SLOTS, BUFFERS = 16384, 32768, 64, 4, 64
LONG, SHORT = bytes(range(254)), bytes((10, 11))


def header_crc(bits):
    register = 0x01A
    for bit in bits:
        feedback = bit ^ (register >> 10 & 1)
        register = (register << 1 & 0x7FF) ^ (0x385 if feedback else 0)
    return register


def frame_crc_table():
    table = []
    for byte in range(256):
        register = byte << 16
        for _ in range(8):
            register = register << 1 ^ (0x15D6DCB if register & 0x800000 else 0)
        table.append(register & 0xFFFFFF)
    return table


TABLE = frame_crc_table()


def frame_crc(data, start):
    register = start
    for byte in data:
        register = (register << 8 & 0xFFFFFF) ^ TABLE[register >> 16 ^ byte]
    return register


def frame(slot, cycle, start, payload):
    """Returns a data frame, without sync and startup."""
    words = len(payload) // 2
    covered = slot << 7 | words
    crc = header_crc([covered >> place & 1 for place in range(19, -1, -1)])
    header = 1 << 37 | slot << 24 | words << 17 | crc << 6 | cycle
    front = header.to_bytes(5, "big") + payload
    return (front + frame_crc(front, start).to_bytes(3, "big")).hex()


def frames(payload):
    """Returns the frames of both channels in each slot and cycle."""
    return {
        (slot, cycle): f"x{frame(slot, cycle, 0xFEDCBA, payload)} x{frame(slot, cycle, 0xABCDEF, payload)}"
        for slot in range(1, SLOTS + 1)
        for cycle in range(CYCLES)
    }


def receiving(out, part, payload, windows, commits=0, first=False, after=None):
    """Returns windows of slots that the node receives, with commits on an event buffer, first or among the windows."""
    commits, windows, seen = commits // part, windows // part, frames(payload)
    host = max(1, commits, windows if after else 0)
    out.write(f"frtrace 1\nparams 8 0 {len(payload) // 2} 100 1 0 200 1000 0 1\n")
    out.write(f"node 1 0 0 {host} {2 * windows}\nown 8 AB 0 0\ntx event 8 AB 0 1 - 0\n")
    if after == "pop":
        out.write(f"queue 2 1 {SLOTS} A 0 1\n")
    else:
        out.writelines(f"rx {slot} AB 0 1\n" for slot in range(1, SLOTS + 1))
    out.write("begin\n")
    commit, entry = f"commit 0 0 x{payload.hex()}\n", 0
    if first:
        out.writelines(commit for _ in range(commits))
    for number in range(windows):
        slot, cycle = number % SLOTS + 1, number // SLOTS % CYCLES
        if not first and number % 2 == 0 and number // 2 < commits:
            out.write(commit)
        out.write(f"fetch {number} {cycle} 0 {slot} {slot} - -\nsee {number} {seen[slot, cycle]}\n")
        entry += 2
        if after:
            out.write(f"read 0 {slot} {entry - 1}:A\n" if after == "read" else f"pop 0 {entry - 1}:A\n")
            entry += 1
    out.write("end\n")


def sending(out, part, withdraws=False):
    """Returns the calls of as many event buffers as a plan may have.

    Each of them gets a commit and sends it before the next does, or has every other one taken back before its slot
    comes.
    """
    commits = HOST // part if not withdraws else HOST * 2 // 3 // part
    out.write(f"frtrace {2 if withdraws else 1}\nparams 64 0 1 20 1 0 200 1480 0 1\n")
    out.write(f"node 1 0 0 {HOST // part} {2 * commits}\n")
    out.writelines(f"own {slot} AB 0 0\n" for slot in range(1, BUFFERS + 1))
    out.writelines(f"tx event {slot} AB 0 1 - 0\n" for slot in range(1, BUFFERS + 1))
    out.write("begin\n")
    entry = 0
    for number in range(commits):
        slot, cycle = number % BUFFERS + 1, number // BUFFERS % CYCLES
        taken_back = withdraws and number % 2 == 1
        withdraw, offer = (f"withdraw 0 {slot - 1} {entry}\n", "null") if taken_back else ("", entry)
        out.write(f"commit 0 {slot - 1} x0a0b\n{withdraw}fetch {number} {cycle} 0 {slot} {slot} {offer} {offer}\n")
        out.write(f"see {number} own own\n")
        entry += 3 + taken_back
    out.write("end\n")


KINDS = {
    "commits": lambda out, part: receiving(out, part, LONG, WINDOWS, HOST, first=True),
    "run": lambda out, part: receiving(out, part, LONG, WINDOWS, HOST),
    "short": lambda out, part: receiving(out, part, SHORT, WINDOWS, HOST),
    "windows": lambda out, part: receiving(out, part, SHORT, HOST),
    "reads": lambda out, part: receiving(out, part, SHORT, HOST, after="read"),
    "pops": lambda out, part: receiving(out, part, SHORT, HOST, after="pop"),
    "buffers": sending,
    "withdraws": lambda out, part: sending(out, part, withdraws=True),
}
