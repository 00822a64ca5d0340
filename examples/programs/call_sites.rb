# Call sites that see many classes, and methods, modules and constants that change while loops run.
class A; def v; 1 end; def w(x = 1) x end; end
class B < A; def v; 2 end; end
class C; def v; 3 end; def method_missing(n, *a) [n, a] end; end
class D; attr_reader :v; def initialize; @v = 4 end; end
class E; define_method(:v) { 5 }; define_method(:w) { |*a| a }; end
o = Object.new
def o.v; 6 end
def o.w(*) super rescue :nosup end
objs = [A.new, B.new, C.new, D.new, E.new, o]
3.times { p objs.map { |x| x.v } }
p objs.map { |x| (x.w rescue :nm) }
r = []
10.times do |i|
  r << A.new.v
  if i == 2 then class A; def v; 10 end; end end
  if i == 4 then class A; undef v; end end
  if i == 6 then class Object; def v; :obj end; end end
  if i == 8 then class A; attr_accessor :v; end end
rescue NoMethodError
  r << :gone
end
p r
b = B.new
s = []
6.times do |i|
  s << b.v
  def b.v; [:s, super] end if i == 1
  class B; def v; :b2 end; end if i == 3
  class << b; remove_method :v; end if i == 4
end
p s
module M1; def hi; [:m1] + (defined?(super) ? super : []) end; end
module M2; def hi; [:m2] + (defined?(super) ? super : []) end; end
class H; def hi; [:h] end; end
class I < H; end
i = I.new
t = []
5.times do |k|
  t << i.hi
  class I; include M1; end if k == 0
  i.extend(M2) if k == 1
  class H; include M2; end if k == 2
  class I; def hi; [:i] + super end; end if k == 3
end
p t
X = 1
def getx; X end
u = []
3.times { |k| u << getx; Object.const_set(:X, k * 10) }
p u, getx
module N; Y = 1; def self.y; Y end; class In; def y; Y end; end; end
w = [N.y, N::In.new.y]
N.const_set(:Y, 2)
w += [N.y, N::In.new.y]
class N::In; Y = 3; end
w += [N.y, N::In.new.y]
p w
class P; def go(k) k == 0 ? [] : [self.class] + go(k - 1) end; end
class Q < P; def go(k) k == 2 ? super(k - 1) : super end; end
p Q.new.go(3), P.new.go(2)
class Integer; def tw; self * 2 end; end
f = []
begin
  4.times do |k|
    f << 5.tw
    class Integer; def tw; self * 3 end; end if k == 1
    class Integer; remove_method :tw; end if k == 2
  end
rescue NoMethodError
  f << :nm
end
p f
def self.z; :self_z end
p z, self.z
g = [1, "a", :b, nil, [1], {a: 1}, 1..2, true, 2 ** 40, o.class, ->(x) { x }]
p g.map { |x| x.to_s.class }, g.map { |x| x.nil? }, g.map { |x| x == 1 }, g.map { |x| x.class }
p g.map { |x| x.respond_to?(:each) }, g.map { |x| (x + x rescue :no) }.first(5)
p g.map { |x| (x <=> x) }.length, g.map { |x| x.dup.class }
def poly(x)
  case x
  when Integer then x + 1
  when String then x + "1"
  when Array then x + [1]
  when nil then :nil
  when Hash then x.merge({b: 1})
  else x.class
  end
end
2.times { p g.map { |x| poly(x) } }
def add(x, y) x + y end
p add(1, 2), add("a", "b"), add([1], [2]), (add(1, "b") rescue :te), (add(nil, 1) rescue :nm), add(2 ** 61, 2 ** 61)
def cmp(x, y) x < y end
p cmp(1, 2), cmp("a", "b"), (cmp(1, nil) rescue :ae), (cmp(nil, 1) rescue :nm)
def idx(x, k) x[k] end
p idx([1, 2], 1), idx({k: 3}, :k), idx("abc", 1)
p idx(->(q) { q * 2 }, 4), (idx(nil, 1) rescue :nm), (idx(A.new, 1) rescue :nm2)
def yl(x) yield x end
p yl(1) { |q| q }, yl([1, 2]) { |q, e| [e, q] }, yl([1, 2]) { |q| q }
p yl(nil) { |q, e| [q, e] }, yl({a: 1}) { |q, *e| [q, e] }
def opt(a, b = a, *c, d) [a, b, c, d] end
2.times { p opt(1, 2), opt(1, 2, 3), opt(1, 2, 3, 4) }
