"""quiltmap: maps of QUILT from Python.

    with quiltmap.open("town") as m:
        m.union("river", "lake", "water")
        print(m.area("water", 1))
        m.publish()
"""

from .client import Layer, Map, Records, new, open
from .errors import Ended, InUse, NoProgram, QuiltError, Refused

__all__ = ["Ended", "InUse", "Layer", "Map", "NoProgram", "QuiltError", "Records", "Refused", "new", "open"]
