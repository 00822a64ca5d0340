# Constants that come, change and are hidden by others, read again by the same methods.
X = 1
module M; Y = 10; end
class A
  def x; X; end
  def y; Y; end
end
class B < A
  def x; X; end
end
3.times { puts A.new.x }
class A; X = 2; end
puts A.new.x, B.new.x
class B; X = 3; end
puts A.new.x, B.new.x
begin
  A.new.y
rescue NameError => e
  puts e.class
end
class A; include M; end
puts A.new.y
A.const_set(:Z, 5)
class A
  def z; Z; end
end
puts A.new.z
Z = 9
puts A.new.z
def top; W; end
begin
  top
rescue NameError => e
  puts e.class
end
W = 4
puts top
i = 0
while i < 3
  puts top + i
  i += 1
end
class Object; V = 7; end
class C
  def v; V; end
end
puts C.new.v
class C; V = 8; end
puts C.new.v
module N
  Q = 1
  class In
    def q; Q; end
  end
end
puts N::In.new.q
module N
  class In; Q = 2; end
end
puts N::In.new.q
C.send(:const_set, :U, 3)
class C; def u; U; end; end
puts C.new.u
p [X, W].map { |q| q + X }
