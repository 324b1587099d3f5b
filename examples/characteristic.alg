# In characteristic 0 no number but 0 is zero, so 2 is no condition. Nor is 1/x, whose numerator is 1.
field F char 0.
var x : F.
goal x/2 + x/2 = x by field.
goal 1/(1/x) = x by field.
