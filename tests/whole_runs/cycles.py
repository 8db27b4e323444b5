"""The tables `params` of the tests' cluster files."""

PARAMETERS = """[params]
static_slots = {slots}
minislots = {minislots}
static_words = 1
static_mt = 20
minislot_mt = 5
symbol_mt = {symbol}
nit_mt = {idle_time}
cycle_mt = {cycle}
idle = {idle}
words_per_minislot = {words}
"""
STATIC_ALONE = PARAMETERS.format(slots=2, minislots=0, symbol=0, idle_time=10, cycle=50, idle=0, words=5)
"""Two static slots of one word, and no minislot."""

ONE_WORD = PARAMETERS.format(slots=3, minislots=4, symbol=0, idle_time=10, cycle=90, idle=0, words=5)
"""Three static slots of one word, and four minislots of five."""

SMALL_CYCLE = PARAMETERS.format(slots=3, minislots=10, symbol=4, idle_time=6, cycle=120, idle=1, words=4)
"""Three static slots of one word, and ten minislots of four, of which one stays idle after a transmission."""
