/* Floats of both widths: they are read and written, and refused where a module is analysed. */
static double matrix[4][4];

void identity(void) {
  for (int i = 0; i < 4; i++)
    for (int j = 0; j < 4; j++) matrix[i][j] = i == j ? 1.0 : 0.0;
}

double trace(void) {
  double sum = 0;
  for (int i = 0; i < 4; i++) sum += matrix[i][i];
  return sum;
}

float mean(const float *xs, int count) {
  float sum = 0.0f;
  for (int i = 0; i < count; i++) sum += xs[i];
  return count ? sum / (float)count : 0.0f;
}

double power(double base, int exponent) {
  double result = 1;
  unsigned int rest = exponent < 0 ? 0u - (unsigned int)exponent : (unsigned int)exponent;
  for (; rest; rest >>= 1, base *= base)
    if (rest & 1) result *= base;
  return exponent < 0 ? 1 / result : result;
}

long long rounded(double x) { return (long long)(x < 0 ? x - 0.5 : x + 0.5); }
unsigned int bits(float x) { return __builtin_bit_cast(unsigned int, x); }
double least(double a, double b) { return a < b ? a : b; }
float root(float x) { return __builtin_sqrtf(x); }
