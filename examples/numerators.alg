# Over the common denominators x and x + 1 the numerators are x + 1 and x, which differ.
field F.
var x : F.
goal 1/x = 1/(x + 1) by field.
