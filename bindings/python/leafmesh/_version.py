"""The version of this package and of the library that it calls."""

VERSION = "0.11.0"
