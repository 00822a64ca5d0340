# The game of life on a torus, with patterns read from text and a search for cycles.
class World
  NEAR = [-1, 0, 1].map { |y| [-1, 0, 1].map { |x| [y, x] } }.flatten

  OFFSETS = []
  for dy in -1..1
    for dx in -1..1
      OFFSETS << [dy, dx] unless dy == 0 and dx == 0
    end
  end

  attr_reader :height, :width, :age

  def self.parse(text)
    rows = text.lines.map(&:chomp)
    world = new rows.size, rows.map { |row| row.size }.max
    rows.each_with_index do |row, y|
      x = -1
      row.each_char do |c|
        x += 1
        world[y, x] = true if c == "#"
      end
    end
    world
  end

  def initialize(height, width)
    @height, @width, @age = height, width, 0
    @cells = Array.new(height) { Array.new(width, false) }
  end

  def [](y, x)
    @cells[y % height][x % width]
  end

  def []=(y, x, alive)
    @cells[y % height][x % width] = alive
  end

  def near(y, x)
    OFFSETS.count { |(dy, dx)| self[y + dy, x + dx] }
  end

  def each
    return to_enum unless block_given?
    height.times { |y| width.times { |x| yield y, x, self[y, x] } }
  end

  def population
    count = 0
    each { |_, _, alive| count += 1 if alive }
    count
  end

  def step
    after = World.new(height, width)
    each do |y, x, alive|
      after[y, x] =
        case near(y, x)
        when 2 then alive
        when 3 then true
        else false
        end
    end
    @cells = after.cells
    @age += 1
    self
  end

  def run(steps)
    steps.times { step; break unless population > 0 }
    self
  end

  def place(other, top, left)
    other.each do |y, x, alive|
      next unless alive
      self[top + y, left + x] = true
    end
    self
  end

  def key
    @cells.map { |row| row.map { |c| c ? "1" : "0" }.join.to_i(2) }.join(":")
  end

  def to_s
    @cells.map { |row| row.map { |c| c ? ?# : ?. }.join + "\n" }.join
  end

  protected

  def cells
    @cells
  end
end

def cycle(world, limit = 40)
  seen = {}
  while world.age < limit
    key = world.key
    return [seen[key], world.age - seen[key]] if seen.include?(key)
    seen[key] = world.age
    world.step
  end
  nil
end

blinker = World.parse <<P
.....
.....
.###.
.....
.....
P

glider = World.parse(".#.
..#
###")

puts blinker, blinker.population
puts blinker.step
p cycle(blinker)

world = World.new(8, 10).place(glider, 0, 0)
puts world
world.run(4)
puts world, world.age
p cycle(World.new(6, 6).place(glider, 1, 1))

block = World.new(4, 4)
block[1, 1] = block[1, 2] = block[2, 1] = block[2, 2] = true
puts block.step.key, block.near(1, 1)

lonely = World.new 3, 3
lonely[0, 0] = true
lonely.run(10)
puts lonely.age, lonely.population

r = World.new(12, 12).place(World.parse(".##\n##.\n.#."), 4, 4)
counts = []
begin
  counts << r.population
  r.step
end while r.age < 20
puts counts.join(" ")
counts.each_slice(5) { |part| puts part.map { |n| "*" * (n / 2) }.join("|") }
puts World::OFFSETS.size, World::NEAR.size
