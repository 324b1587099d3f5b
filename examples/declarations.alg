# Each declaration: a ring, domains, a field, a characteristic, morphisms and variables.
ring R.
domain D.
domain Z char 0.
field F char 0.
hom f : R -> D.
hom g : Z -> F.
var x y : R.
var z : Z.
goal f(x*y + 1) = f(y)*f(x) + 1 by ring.
goal g((z - 1)^2) = g(z)^2 - 2*g(z) + 1 by ring.
