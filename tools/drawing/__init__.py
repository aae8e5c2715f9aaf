"""Pictures and tables of texts that plift-view itself doesn't read, as it shows reports: the same words, the same look.

`leaves` reads a text by recheck.py, which judges it; `slices` says what is looked at; `picture` and `table` write.
"""
