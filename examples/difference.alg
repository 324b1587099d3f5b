# The sides differ at x*y, where the coefficients are 2 and 0.
ring R.
var x y : R.
goal (x + y)^2 = x^2 + y^2 by ring.
