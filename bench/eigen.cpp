// Eigen's product of a sparse matrix, stored by rows, with a vector, for the table of bench/run. A shared library, which the
// program loads, so that Eigen's product and the others are timed in one process.
#include <Eigen/Sparse>

using Matrix = Eigen::SparseMatrix<double, Eigen::RowMajor, int>;

// The slices must outlive what is returned.
extern "C" Eigen::Map<const Matrix> *eigen_matrix(int n, const int *row_ptr, const int *col_idx, const double *vals) {
    return new Eigen::Map<const Matrix>(n, n, row_ptr[n], row_ptr, col_idx, vals);
}

extern "C" void eigen_product(const Eigen::Map<const Matrix> *matrix, const double *src, double *dst) {
    Eigen::Map<const Eigen::VectorXd> from(src, matrix->cols());
    Eigen::Map<Eigen::VectorXd>(dst, matrix->rows()).noalias() = *matrix * from;
}
