# A denominator that is zero when it is multiplied out. The answer tells it as it is written.
field F.
var x y : F.
goal x/((x + y)^2 - x^2 - 2*x*y - y^2) = 1 by field.
