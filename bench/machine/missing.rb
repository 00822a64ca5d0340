# Calls of methods that aren't there.
class Ghost
  def initialize; @seen = 0; end
  def method_missing(name, *items)
    @seen += name == :add ? items[0] : 1
  end
end

ghost = Ghost.new
i = 0
last = 0
while i < 600_000
  last = ghost.add(i)
  last = ghost.other if i % 2 == 0
  i += 1
end
puts last
