# The denominators of the first goal have together the norm 2^128 - 2, those of the second the degree 1,001.
field F.
var x : F.
goal x/170141183460469231731687303715884105727/2 = 0 by field.
goal 1/x^1000/x = 0 by field.
