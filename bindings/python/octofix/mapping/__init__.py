"""Maps made of clouds: `live` while they come, `tiles` of any extent."""

__all__ = ["live", "tiles"]
