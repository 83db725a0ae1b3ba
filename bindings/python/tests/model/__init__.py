"""The package as ctypes and numpy alone have it, without a lock: what the compiled one is compared
with."""
