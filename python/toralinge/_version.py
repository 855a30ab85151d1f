"""The version of this package, the same as the library's."""
__version__ = "1.2.3"
