"""Clouds, poses, trajectories and bags, of files: what the tools read, for programs.

`clouds` reads point clouds, `poses` and `trajectory` say where the sensor stood, and `formats` has
a module of each form. Public is `clouds`.
"""

__all__ = ["clouds"]
