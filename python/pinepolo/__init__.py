"""Reads the stores of pinepolo, and takes tables from CSV files into them and back.

    import pinepolo
    store = pinepolo.open("store")
    for row in store.rows(columns=["id", "v"], order="b", start=15):
        ...
    frame = store.to_pandas()
"""
from .errors import DataError
from .store import File, Store
from .store import open_store as open

__all__ = ["DataError", "File", "Store", "open"]
