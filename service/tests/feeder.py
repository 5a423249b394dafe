"""A radio's program: prints telegrams in hexadecimal, from where it was ended before. feeder.py TELEGRAMS PLACE SECONDS"""
import os
import sys
import time

path, place, pause = sys.argv[1], sys.argv[2], float(sys.argv[3])
with open(path, encoding="ascii") as file:
    lines = file.read().split()
try:
    with open(place, encoding="ascii") as file:
        start = int(file.read() or 0)
except FileNotFoundError:
    start = 0
for number in range(start, len(lines)):
    print(lines[number], flush=True)
    with open(place + ".next", "w", encoding="ascii") as told:
        told.write(str(number + 1))
    os.replace(place + ".next", place)
    time.sleep(pause)
while True:
    time.sleep(60)
