#!/usr/bin/env python3
"""A program that issues numbers as a hurried hand would write it: careless.py WAY FILE. It reads the store, adds one to
the number of its first meter, saves and prints. All its ways but the first have an error that cuts.py must see:

  right          a file beside, flushed, renamed, the folder flushed, then printed
  in-place       the store's own file is written over, in two parts
  cut-first      the store's own file is emptied, then written
  no-flush       a file beside, renamed without being flushed
  no-folder      .. and flushed, but not the folder
  print-first    the number is printed before it is saved
  second-file    the number is saved in a file beside, and never comes to the store's own
"""
import os
import sys

NUMBER = slice(22, 26)


def put(path, flags, *parts, flush=True):
    file = os.open(path, os.O_WRONLY | flags, 0o600)
    for part in parts:
        os.write(file, part)
    if flush:
        os.fsync(file)
    os.close(file)


def flush_folder(path):
    folder = os.open(os.path.dirname(path), os.O_RDONLY)
    os.fsync(folder)
    os.close(folder)


def save(way, path, store):
    beside = path + ".beside"
    if way == "in-place":
        put(path, 0, store[:24], store[24:])
        return
    if way == "cut-first":
        put(path, os.O_TRUNC, store)
        return
    put(beside, os.O_CREAT | os.O_TRUNC, store, flush=way != "no-flush")
    if way == "second-file":
        return
    os.rename(beside, path)
    if way != "no-folder":
        flush_folder(path)


def main():
    way, path = sys.argv[1:]
    with open(path, "rb") as file:
        store = bytearray(file.read())
    number = int.from_bytes(store[NUMBER], "big") + 1
    store[NUMBER] = number.to_bytes(4, "big")
    if way == "print-first":
        print(f"0 accepted number={number}", flush=True)
    save(way, path, bytes(store))
    if way != "print-first":
        print(f"0 accepted number={number}", flush=True)


main()
