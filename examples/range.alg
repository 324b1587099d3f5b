# 2^127 is over the greatest norm, so the answer is range.
ring R.
var x : R.
goal (2*x)^127 = (2*x)^127 by ring.
