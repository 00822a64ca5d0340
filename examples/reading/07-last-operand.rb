# An assignment is an operand where it is the last one.
a = true
a && b = 1
p b
c = false
c || d = 2
p d
p(1 + e = 2)
p e
!f = 1
p f
p((!g = nil))
p g
h = 5
a && h += 1
p h
i = [0]
a && i[0] = 3
p i
a and j = 4
p j
