"""The version, as the C header names it."""

__version__ = "1.0.0"
