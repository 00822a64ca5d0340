# `super` alone passes the method's own parameters, also where the block's have their names.
class A
  def one(x); [:one, x]; end
  def two(x, y); [:two, x, y]; end
  def rest(x, *y); [:rest, x, y]; end
  def pattern(x, y); [:pattern, x, y]; end
  def changed(x); [:changed, x]; end
end
class B < A
  def one(x); [10].map { |x| super }; end
  def two(x, y); [10].map { |y| super }; end
  def rest(x, *y); [10].map { |y| super }; end
  def pattern((a, b), y); [[10, 20]].map { |(a, b)| super }; end
  def changed(x); x += 1; [10].map { |x| super }; end
end
b = B.new
p b.one(1)
p b.two(1, 2)
p b.rest(1, 2, 3)
p b.pattern([1, 2], 3)
p b.changed(1)
