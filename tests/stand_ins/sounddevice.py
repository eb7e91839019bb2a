"""Stands in for sounddevice where tests/snippets.py runs what the documents show: a stream whose callback is called in a thread, as fast as it can."""
import threading

import numpy


class OutputStream:
    """Each block is handed over full of NaN, and is to come back without one."""

    def __init__(self, samplerate, blocksize, *, channels, dtype, callback):
        self.shape, self.dtype, self.callback, self.blocks, self.is_over = (blocksize, channels), dtype, callback, 0, threading.Event()
        self.thread = threading.Thread(target=self.play)
        assert samplerate == 48000 and blocksize == 128, (samplerate, blocksize)

    def play(self):
        while self.blocks < 8 or not self.is_over.is_set():
            out = numpy.full(self.shape, numpy.nan, self.dtype)
            self.callback(out, self.shape[0], None, None)
            if numpy.isnan(out).any():
                break
            self.blocks += 1

    def __enter__(self):
        self.thread.start()
        return self

    def __exit__(self, *_):
        self.is_over.set()
        self.thread.join()
        assert self.blocks >= 8, f"block {self.blocks} was not filled, or not answered"
