# Of the first goal only the square follows, so there is none up to power 1; the second would take a counted move.
domain D.
var x y : D.
hyp S : x^2 = 0.
goal x = 0 by nsatz using S.
hyp H : x*y = 0.
goal x*y^2 = 0 by nsatz using H limit 0.
