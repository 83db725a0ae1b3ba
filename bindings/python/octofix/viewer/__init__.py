"""Maps as pictures and as pages of a browser. Public are the `colours` of heights and classes."""

__all__ = ["colours"]
