"""Writes the files scipy-*.mtx beside it, as SciPy does by itself: python3 write.py FOLDER, with Debian's python3-scipy. The stored ones are of
SciPy 1.10.1."""
import os
import sys

import numpy
import scipy.io
import scipy.sparse as sparse

os.chdir(sys.argv[1])
K1 = sparse.coo_matrix(numpy.eye(2, dtype=int))
K2 = sparse.coo_matrix(numpy.ones((3, 3), dtype=int) - numpy.eye(3, dtype=int))
K3 = sparse.coo_matrix(numpy.array([[1, 1, 0], [1, 1, 0], [0, 1, 1]]))
readings = numpy.array([[250.75, -99.999999999, 0, 1e-9], [12.5, 310.25, -100, 0], [0, 149.99999999999997, 100.0, 1000000.5], [-0.5, 0, 160.0, 2e5]])
skew = numpy.array([[0, -150.5, 3], [150.5, 0, -0.25], [-3, 0.25, 0]])
scipy.io.mmwrite("scipy-k1.mtx", K1)
scipy.io.mmwrite("scipy-k2.mtx", K2)
scipy.io.mmwrite("scipy-k3.mtx", K3)
scipy.io.mmwrite("scipy-k2-pattern.mtx", K2, field="pattern")
scipy.io.mmwrite("scipy-k2-real.mtx", K2.astype(float))
scipy.io.mmwrite("scipy-readings.mtx", sparse.coo_matrix(readings))
scipy.io.mmwrite("scipy-array.mtx", readings)
scipy.io.mmwrite("scipy-array-symmetric.mtx", (readings + readings.T) / 4)
scipy.io.mmwrite("scipy-array-integer.mtx", numpy.rint(readings[:, :3]).astype(int))
scipy.io.mmwrite("scipy-skew.mtx", sparse.coo_matrix(skew))
scipy.io.mmwrite("scipy-array-skew.mtx", skew)
scipy.io.mmwrite("scipy-complex.mtx", sparse.coo_matrix(numpy.array([[1j, 2]])))
