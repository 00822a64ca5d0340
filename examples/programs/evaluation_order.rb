# The order in which parts are evaluated: arguments, indexes, defaults of parameters, splats, nested targets.
def t(n, v = n) print n, " "; v end
a = [0, 1, 2]
a[0], a[1] = t(:x, 10), t(:y, 20)
puts
p a
h = Hash.new
(h[t(:k)] ||= t(1)); (h[t(:k)] ||= t(2))
puts
class O
  attr_accessor :v, :w
  def get; print "get "; self; end
end
o = O.new
o.get.v = t(1)
o.get.v += t(2)
o.get.w ||= t(3)
o.get.w ||= t(4)
o.get.w &&= t(5)
puts
p o.v, o.w
o.v, o.w = o.w, o.v
p o.v, o.w
o.v, (a[0], *o.w), b = t(:l), [t(:m), t(:n), t(:o)], t(:p)
puts
p o.v, a, o.w, b
def m(*a, &b) print "call "; b ? b.call(*a) : a end
p m(t(1), *[t(2), t(3)], t(4), &(t(5); proc { |*x| x.reverse }))
p [t(1), *t(2, [8, 9]), t(3)], {t(:a) => t(1), t(:b) => t(2)}
puts t(1) + t(2) * t(3)
puts (t(1, nil) || t(2)) && t(3)
puts t(1) == 1 ? t(2) : t(3)
x = 1
y = x + (x = 5) + x
p y
z = [x, x += 1, x, x *= 2]
p z
i = 0
arr = [10, 20, 30]
arr[i += 1] += 5
p arr, i
arr[i -= 1], arr[i += 2] = :p, :q
p arr, i
s = "a"
r = s + (s = "b") + (s << "c") + s
p r
def dflt(a, b = t(:b, a * 2), c = (print "c "; b + 1)) [a, b, c] end
p dflt(1), dflt(1, 5), dflt(1, 5, 9)
def dflt3(a, b = a.map { |q| q * a.length }, &blk) blk ? blk.call(b) : b end
p dflt3([1, 2]), dflt3([1, 2]) { |k| k.sum }, dflt3([3], 4)
q = ->(a, b = a, c = ->(w) { w + b }) { c[a] }
p q[1], q[1, 10], q[1, 2, ->(w) { w * 100 }]
v = (print "v "; 5)
p v
p((t(1) if t(false)), (t(1) unless t(false)))
w = t(false) || t(nil) || t(:last)
p w
k = nil
k ||= begin; print "init "; 7; end
p k
a, b = b, a
p(a.class)
a = b = c = t(3)
p a, b, c
a = (b = 1, 2)
p a, b rescue 0
c, d = d = 5, 6
p c, d
*c, d = *[1, 2], 3, *[4]
p c, d
a, (b, *c), *d = 1, [2, 3, 4], 5, 6
p a, b, c, d
(a, b), (c, d) = [1, 2], [3, 4]
p [a, b, c, d]
a, b = *"x"
p a, b
a, b = nil
p a, b
a, b = {k: 1}
p a, b
a, b = 1..2
p a, b
a, b = [[1, 2]]
p a, b
$ga, @ia, CA = 1, 2, 3
p $ga, @ia, CA
def self.zz=(v); @zz = v; end
self.zz, q = 5, 6
p @zz
l = [[1, [2, 3]], [4, [5, 6]]].map { |a, (b, c)| a + b * c }
p l
h = {a: [1, 2], b: [3, 4]}
h.each { |k, (x, y)| p [k, x, y] }
p h.map { |k, (x, y)| [k, x + y] }, h.inject(0) { |s, (k, (x, y))| s + x * y }
h.each_with_index { |(k, (x, y)), i| p [k, x, y, i] }
