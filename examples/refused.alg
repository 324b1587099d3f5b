# A quotient may not stand in a goal by ring, so the file is refused at the /.
field F.
var x : F.
goal x/x = 1 by ring.
