# The two sides are one polynomial.
ring R.
var x y : R.
goal (x + y)^2 = x^2 + 2*x*y + y^2 by ring.
