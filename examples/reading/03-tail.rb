# Targets after a star take what is left; a target without a value is nil.
a, *b, c = [1]
p a, b, c
*a, b, c = [1]
p a, b, c
a, *b, c = [1, 2]
p a, b, c
a, *b, c = [1, 2, 3, 4]
p a, b, c
*a, b = []
p a, b
a, (b, *c, d), e = 1, [2], 3
p a, b, c, d, e
*a, b, c = 1, 2
p a, b, c
