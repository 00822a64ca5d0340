# Names that begin with `_` may be repeated; `alias` and `undef` take symbols; `->` has parameters of its block alone.
def f(_a, _a); _a; end
p f(1, 2)
def g(_, _, b); b; end
p g(1, 2, 3)
p [[1, 2]].map { |_, _| 3 }
def b; :b; end
alias :a :b
p a
alias :+ :b
def x; 1; end
undef :x
begin
  x
rescue NameError
  puts "undefined"
end
y = 5
h = ->(x; y) { y = x; y }
p h.call(6)
p y
i = -> (x; y, z) { y = z = x }
p i.call(7), y
