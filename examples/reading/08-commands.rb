# A plain start begins an argument of a command, whatever stands before it.
p = 1
p p
p Integer "3"
puts"a"
@x = 2
puts@x
$y = 3
puts$y
puts:z
def self.twice(n); n * 2; end
p self.twice 4
