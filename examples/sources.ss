p aux sp ss 2
s 3
s 1
