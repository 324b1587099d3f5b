# The first goal follows by a line and two steps, wherever 2 is not zero; the second by its square alone; the third
# where x is not zero.
domain D.
var x y : D.
hyp P : x + y = 0.
hyp Q : x - y = 0.
goal y = 0 by nsatz using P, Q.
hyp S : x^2 = 0.
goal x = 0 by nsatz using S power 2.
hyp H : x*y = 0.
hyp N : x <> 0.
goal y = 0 by nsatz using H, N.
