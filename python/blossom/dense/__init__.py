"""Dense instances: matrices of costs, points, and graphs of more edges than the program takes."""
from .assignment import Assignment, assignment

__all__ = ["Assignment", "assignment"]
