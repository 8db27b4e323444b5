"""The wide, the deep and the crowded run: a cluster of each, and a scenario for so many cycles of it."""

CYCLES, SLOTS = 1024, 32


class Kind:
    """A cluster, and scenarios for it."""

    def __init__(self, nodes, tasks, words, lines, slots=SLOTS):
        self.nodes, self.tasks, self.words, self.lines_at_most, self.slots = nodes, tasks, words, lines, slots

    def cluster(self):
        length = min(100, 10_240 // self.slots)
        yield f'guard = "AB"\n[params]\nstatic_slots = {self.slots}\nminislots = 0\nstatic_words = {self.words}\n'
        yield f"static_mt = {length}\nminislot_mt = 1\nsymbol_mt = 0\nnit_mt = 100\n"
        yield f"cycle_mt = {self.slots * length + 100}\nidle = 0\nwords_per_minislot = 1\n"
        for node in range(self.nodes):
            slots = [slot for slot in range(1, self.slots + 1) if slot % self.nodes == node]
            owned = ", ".join(f'{{slot = {slot}, channels = "AB"}}' for slot in slots)
            other = slots[0] % self.slots + 1
            yield (f"[[node]]\ntasks = {self.tasks}\nhost_entries = 16384\nslot_entries = 65536\n"
                   f"own = [{owned}]\nbuffer = [\n")
            yield (f'  {{kind = "state", slot = {slots[0]}, channels = "AB"}},\n'
                   f'  {{kind = "event", slot = {slots[1]}, channels = "AB"}},\n')
            yield f'  {{kind = "receive", slot = {other}, channels = "AB"}},\n]\n'

    def lines(self, cycles):
        """Yields the lines: each task commits and reads in turn, in cycles that are spread over the run."""
        each = min(self.lines_at_most // (self.nodes * self.tasks), cycles)
        for node in range(self.nodes):
            for task in range(self.tasks):
                for place in range(each):
                    cycle = place * cycles // each
                    if (place + task) % 2:
                        yield f"read {node} {task} {cycle} 2\n"
                    else:
                        yield f"commit {node} {task} {cycle} {task % 2} x{'5a' * 2 * self.words}\n"

    def write(self, folder, cycles):
        cluster, scenario = folder / "cluster.toml", folder / "scenario"
        cluster.write_text("".join(self.cluster()), encoding="ascii")
        scenario.write_text("frscenario 1\n" + "".join(self.lines(cycles)) + "end\n", encoding="ascii")
        return [cluster, scenario, "--cycles", str(cycles)]


KINDS = {"wide": Kind(16, 8, 8, 4094), "deep": Kind(2, 4, 127, 3200)}
# As many windows as the two have, in 32 cycles.
CROWDED = Kind(16, 8, 16, 4094, slots=1023)
