"""Cluster files of full nodes, which bench/cluster_speed describes."""
LINES, STATIC, DYNAMIC = 64, 1023, 1024


def owned(node, line):
    """Returns the slot of an ownership line, and its channels: the last slot is divided between two lines by channel.
    """
    place = line * 16 + node
    if place < STATIC - 1:
        return place + 1, "AB"
    return STATIC, "A" if place == STATIC - 1 else "B"


def cluster(nodes):
    """Yields the text of a cluster file."""
    yield "guard = \"AB\"\n[params]\n"
    yield f"static_slots = {STATIC}\nminislots = 1000\nstatic_words = 2\nstatic_mt = 10\nminislot_mt = 2\n"
    yield f"symbol_mt = 0\nnit_mt = 10\ncycle_mt = {STATIC * 10 + 2010}\nidle = 1\nwords_per_minislot = 4\n"
    for node in range(nodes):
        yield "[[node]]\ntasks = 2\nlatest_a = 990\nlatest_b = 990\nown = [\n"
        for line in range(LINES):
            slot, channels = owned(node, line)
            yield f'  {{slot = {slot}, channels = "{channels}"}},\n'
        yield "]\nbuffer = [\n"
        for line in range(16):
            slot, channels = owned(node, line)
            yield f'  {{kind = "state", slot = {slot}, channels = "{channels}"}},\n'
        for line in range(32):
            # two nodes divide a dynamic slot of a channel by even and odd cycles
            slot, channel = STATIC + 1 + (node // 2) * 32 + line, "AB"[line % 2]
            yield (f'  {{kind = "event", slot = {slot}, channels = "{channel}", base = {node % 2},'
                   f' repetition = 2, words = 4}},\n')
        for line in range(16):
            yield f'  {{kind = "receive", slot = {line + 1}, channels = "AB"}},\n'
        yield "]\n"
