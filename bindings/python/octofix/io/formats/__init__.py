"""Point clouds in files: `clouds_in(name, reading)` gives each cloud of a file in turn."""

from .cloud import RawCloud
from .reading import Reading, clouds_again, clouds_in, has_many

__all__ = ["RawCloud", "Reading", "clouds_again", "clouds_in", "has_many"]
