"""Host programs in a proved world, and scenarios made by a program."""
from musmyrtle.world.world import Buffer, Host, Node, World

__all__ = ["Buffer", "Host", "Node", "World"]
