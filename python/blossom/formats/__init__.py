"""Graphs from files, and answers to files: CSV, lists of edges, GraphML, and the DIMACS format of
matching problems."""
from .reading import FORMATS, format_of, read
from .writing import write_answer, write_instance

__all__ = ["FORMATS", "format_of", "read", "write_answer", "write_instance"]
