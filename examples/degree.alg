# The product has degree 1,001, so the answer is degree.
ring R.
var x : R.
goal x^1000*x = 0 by ring.
