# A `rescue` after the command of an assignment belongs to the assignment.
x = raise "e" rescue 5
p x
def bad(n); raise "bad" if n == 1; n; end
y = bad 1 rescue 6
p y
z = bad 2 rescue 6
p z
w = 1
w += bad 1 rescue 7
p w
v = (raise "e") rescue 8
p v
