# Fibers and enumerators in one another: sieves as chains, walks of trees side by side, exceptions and ensure parts.
def ints(n) Fiber.new { loop { Fiber.yield n; n += 1 } } end
def filt(f, p) Fiber.new { loop { x = f.resume; Fiber.yield x unless x % p == 0 } } end
s = ints(2)
pr = []
60.times { x = s.resume; pr << x; s = filt(s, x) }
p pr.last, pr.first(10), pr.sum
def nest(n) n == 0 ? :bottom : Fiber.new { nest(n - 1) }.resume end
p nest(300)
def sieve
  Enumerator.new do |y|
    e = Enumerator.new { |z| n = 2; loop { z << n; n += 1 } }
    loop do
      x = e.next
      y << x
      e = drop(e, x)
    end
  end
end
def drop(e, k) Enumerator.new { |y| loop { v = e.next; y << v unless v % k == 0 } } end
q = sieve
p (1..25).map { q.next }
def nestr(n)
  return raise("deep") if n == 0
  Fiber.new { begin; nestr(n - 1); ensure; $c = ($c || 0) + 1; end }.resume
end
begin; nestr(100); rescue => e; p e.message, $c; end
fs = Array.new(500) { |i| Fiber.new { |x| loop { x = Fiber.yield(x + i) } } }
p fs.map { |f| f.resume(1) }.sum, fs.map { |f| f.resume(2) }.sum
fs.each_slice(100) { |group| print group.first.resume(0), " " }
def perms(a)
  return to_enum(:perms, a) unless block_given?
  return yield(a) if a.length < 2
  a.each_with_index { |x, i| perms(a[0...i] + a[i + 1..-1]) { |r| yield [x] + r } }
end
e = perms([1, 2, 3, 4])
c = 0
loop { e.next; c += 1 }
p c
def hanoi(n, f, t, v)
  return to_enum(:hanoi, n, f, t, v) unless block_given?
  return if n == 0
  hanoi(n - 1, f, v, t) { |m| yield m }
  yield "#{f}#{t}"
  hanoi(n - 1, v, t, f) { |m| yield m }
end
h = hanoi(4, :a, :b, :c)
m = []
loop { m << h.next }
p m.length, m.join(" ")
class Tree
  def initialize(v, *k) @v, @k = v, k end
  def each(&b) return to_enum unless b; b.call(@v); @k.each { |x| x.each(&b) }; self end
  def post; return to_enum(:post) unless block_given?; @k.each { |x| x.post { |y| yield y } }; yield @v end
  include Enumerable
end
t = Tree.new(1, Tree.new(2, Tree.new(3)), Tree.new(4))
x, y = t.each, t.post
r = []
loop { r << [x.next, y.next] }
p r, t.to_a, t.map { |z| z * z }, t.inject(:+), t.post.next
f = Fiber.new { 10.times { |i| Fiber.yield(i) if i.odd? }; nil }
o = []
while v = f.resume do o << v end
p o, f.alive?
a = Fiber.new { b = Fiber.new { Fiber.yield :b1; :b2 }; Fiber.yield b; Fiber.yield b.resume; b }
b = a.resume
p b.resume, a.resume, b.alive?, a.resume.equal?(b)
begin; b.resume; rescue FiberError => q2; p q2.class; end
z = nil
w = Fiber.new { z.resume }
z = Fiber.new { begin; w.resume; rescue FiberError => q3; q3.class; end }
p z.resume
p Fiber.new { |*a, &b| [a, b] }.resume(1, 2)
g = Fiber.new { [1, 2].each { |i| begin; Fiber.yield i; ensure; print "e", i, " "; end }; :done }
p g.resume, g.resume, g.resume
k = Fiber.new { return_val = [1, 2, 3].each { |i| break i * 10 if Fiber.yield(i) == :stop }; return_val }
p k.resume, k.resume(:go), k.resume(:stop)
def meth_in_fiber; Fiber.new { yield 5 }.resume end
p meth_in_fiber { |q4| q4 + 1 }
l = Fiber.new { lambda { |q5| return q5 * 2 }.call(4) + 1 }
p l.resume
begin
  Fiber.new { [1].each { break } ; raise IndexError, "ix" }.resume
rescue IndexError => e2
  p e2.message
end
n = Fiber.new { begin; raise "a"; rescue; Fiber.yield :rescued; raise TypeError, "b"; ensure; Fiber.yield :ens; end }
p n.resume, n.resume
begin; n.resume; rescue TypeError => e3; p e3.message, n.alive?; end
