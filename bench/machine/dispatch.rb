# One call that finds the methods of four classes in turn.
class Shape
  def initialize(n); @n = n; end
  def area; 0; end
end

class Square < Shape
  def area; @n * @n; end
end

class Strip < Shape
  def area; @n * 2; end
end

class Frame < Square
  def area; super - 1; end
end

shapes = [Shape.new(1), Square.new(2), Strip.new(3), Frame.new(4)]
sum = 0
i = 0
while i < 3_000_000
  sum += shapes[i & 3].area
  i += 1
end
puts sum
