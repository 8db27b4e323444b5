"""Host programs in a proved world, scenarios made by a program, and the command `musmyrtle`.

    from musmyrtle import World

    with World("cluster.toml", cycles=8) as world:
        world.node(0).commit(0, b"\\0\\7")
        world.cycle()
        print(world.node(1).read(1))
"""
import sys

if sys.version_info < (3, 11):
    # This stands before all imports, some of which fail in older versions, and in words that older versions know.
    raise ImportError("musmyrtle needs Python 3.11, and this is Python {}.{}.{}".format(*sys.version_info[:3]))

from musmyrtle.names import Names, UnknownName
from musmyrtle.signals.refusals import BadSignals, BadValue, UnknownSignal
from musmyrtle.world.builder import Scenario, ScenarioText
from musmyrtle.world.faults import Babble, Corrupt, Fault, Mute
from musmyrtle.world.node import Buffer, Node
from musmyrtle.world.receptions import FIFO, Fifo, Listening, Reception
from musmyrtle.world.refusals import (
    AlreadyPut, AlreadyTaken, BadCycles, BadFault, BadLine, BadName, BadWindow, BusMemory, BusRefused, BusUnknownNode,
    ClusterRefused, HostFull, HostRefused, Memory, NoHistory, NoQueue, NoRoom, NotAllPut, NotAllTaken, NotCollecting,
    NotFetched, NotKept, NotObserved, NotReceive, NotSealed, NotStarted, NotTransmit, NoWindow, Refused, SessionOver,
    SlotFull, SlotRefused, TimedOut, TooManyFaults, UnknownBuffer, UnknownNode, UnknownTask, WindowOrder, WrongLength,
    WrongTurn, WrongWindow,
)
from musmyrtle.world.replies import (
    Channel, Counters, Frame, Moment, Queue, ReceiveBuffer, Received, Record, Report, Sent, TransmitBuffer, Window,
)
from musmyrtle.world.waits import at_slot, every, on_frame
from musmyrtle.world.world import World

__all__ = [
    "AlreadyPut", "AlreadyTaken", "Babble", "BadCycles", "BadFault", "BadLine", "BadName", "BadSignals", "BadValue",
    "BadWindow", "Buffer", "BusMemory", "BusRefused", "BusUnknownNode", "Channel", "ClusterRefused", "Corrupt",
    "Counters", "Fault", "FIFO", "Fifo", "Frame", "HostFull", "HostRefused", "Listening", "Memory", "Moment",
    "Mute", "Names", "Node", "NoHistory", "NoQueue", "NoRoom", "NotAllPut", "NotAllTaken", "NotCollecting",
    "NotFetched", "NotKept", "NotObserved", "NotReceive", "NotSealed", "NotStarted", "NotTransmit", "NoWindow",
    "Queue", "ReceiveBuffer", "Received", "Reception", "Record", "Refused", "Report", "Scenario", "ScenarioText",
    "Sent", "SessionOver", "SlotFull", "SlotRefused", "TimedOut", "TooManyFaults", "TransmitBuffer",
    "UnknownBuffer", "UnknownName", "UnknownNode", "UnknownSignal", "UnknownTask", "Window", "WindowOrder", "World",
    "WrongLength", "WrongTurn", "WrongWindow", "at_slot", "every", "on_frame",
]
