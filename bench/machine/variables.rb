# Instance variables, read and set by methods.
class Walk
  attr_reader :x, :y, :steps

  def initialize
    @x = 0
    @y = 1
    @steps = 0
  end

  def step(by)
    @x += by
    @y = @x - @y
    @steps += 1
  end
end

walk = Walk.new
sum = 0
i = 0
while i < 1_500_000
  walk.step(i & 7)
  sum += walk.y
  i += 1
end
puts walk.x, walk.y, walk.steps, sum
