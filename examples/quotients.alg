# In a goal by field each denominator has to be other than zero: the answer has it as a condition.
field F.
field K.
hom f : F -> K.
var x y : F.
goal x/x = 1 by field.
goal 1/x + 1/y = (x + y)/(x*y) by field.
goal f(1/x) = 1/f(x) by field.
# Two may be zero here.
goal x/2 + x/2 = x by field.
