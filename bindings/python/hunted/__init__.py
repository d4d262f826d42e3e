"""Objects that are wrong as people make them wrong, with their right forms."""

from .cases import CASES, RIGHT, Case

__all__ = ["CASES", "RIGHT", "Case"]
