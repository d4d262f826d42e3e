"""A register with compare-and-set. Wrong where that is a load and then a store."""

from .cells import Cell


class CellRegister:
    def __init__(self):
        self._cell = Cell(0)

    def write(self, value):
        self._cell.set(value)

    def read(self):
        return self._cell.value

    def cas(self, old, new):
        return self._cell.compare_and_set(old, new)


class Wrong(CellRegister):
    def cas(self, old, new):
        if self._cell.value != old:
            return False
        self._cell.set(new)
        return True
