"""Stands in for soundfile where tests/snippets.py runs what the documents show: any path is a file of 100 frames of two channels."""


def read(path, dtype="float64"):
    """The samples in (frames, channels), and the sample rate; soundfile gives NumPy's array of them."""
    assert path and dtype in ("float32", "float64"), (path, dtype)
    return [[frame / 128, -frame / 128] for frame in range(100)], 44100
