# Writes the files r-*.mtx beside it, as R's package Matrix does by itself: Rscript write.R FOLDER, with Debian's r-cran-matrix. The stored ones are of
# Matrix 1.5-3 and R 4.2.2.
suppressPackageStartupMessages(library(Matrix))
setwd(commandArgs(trailingOnly = TRUE)[1])
put <- function(m, name) invisible(writeMM(m, name))
r <- matrix(c(250.75, 12.5, 0, -0.5, -99.999999999, 310.25, 150, 0, 0, -100, 100, 160, 1e-9, 0, 1000000.5, 2e5), 4)
put(Diagonal(2), "r-k1.mtx")
put(Matrix(1 - diag(3), sparse = TRUE), "r-k2.mtx")
put(Matrix(matrix(c(1, 1, 0, 1, 1, 1, 0, 0, 1), 3), sparse = TRUE), "r-k3.mtx")
put(Matrix(matrix(c(1, 1, 0, 1, 1, 1, 0, 0, 1), 3) != 0, sparse = TRUE), "r-k3-pattern.mtx")
put(Matrix(r, sparse = TRUE), "r-readings.mtx")
put(Matrix((r + t(r)) / 4, sparse = TRUE), "r-symmetric.mtx")
put(triu(Matrix(r, sparse = TRUE)), "r-triangular.mtx")
