# Lists the ladders of a file of pairs with a pause behind each, as if it went on another day. docs/LINKING.md shows how it is run and what it writes.
import pickle
import sys

from ragymolev import Refused, Table

try:
    paused = pickle.dumps(Table.read(sys.argv[1]).ladders())  # a list that has not begun; these bytes can be stored
except Refused as refused:
    sys.exit(str(refused))
while True:
    ladders = pickle.loads(paused)  # it goes on exactly where it was
    ladder = next(ladders, None)
    if ladder is None:
        break
    print("ladder", ladder)
    paused = pickle.dumps(ladders)
    print("pause")
print("end")
