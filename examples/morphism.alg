# Morphisms keep sums and products, so they are pushed to the variables first.
ring R.
domain S.
hom f : R -> S.
var x y : R.
goal f((x + y)^2) = f(x)^2 + 2*f(x*y) + f(y)^2 by ring.
goal f(x + 1) = f(x) by ring.
