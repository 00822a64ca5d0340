# `[` after white space begins an argument of a command.
p [ 1, 2 ]
puts [ 1 ].max
puts [ 3, 4 ].map { |x| x + 1 }
p [1][0]
def q(*a); a.length; end
p q [ 1, 2 ], 3
a = [5, 6]
p a [1]
