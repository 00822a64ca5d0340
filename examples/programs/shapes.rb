# Shapes in a hierarchy of classes and modules, with units that define every operator.
module Named
  def name
    defined?(super) ? "#{label} #{super}" : label
  end

  def label; @label || self.class.name.downcase end
end

module Describe
  def describe(prefix = "a", *notes, &block)
    text = "#{prefix} #{name} of area #{area}"
    text += " (" + notes.join(", ") + ")" unless notes.empty?
    block ? block.call(text) : text
  end
end

class Shape
  include Comparable, Describe
  include Named

  Sides = 0
  attr_writer :label

  class << self
    attr_reader :made

    def inherited_from?(other)
      self != other && self <= other
    end

    def make(*sizes)
      @made = (@made || 0) + 1
      new(*sizes)
    end

    alias [] make
  end

  def initialize(*) end

  def area; raise NotImplementedError, "area of #{self.class}" end

  def <=>(other)
    return nil unless other.is_a?(Shape)
    area <=> other.area
  end

  def sides
    self.class::Sides
  end

  def double?() false end
end

class Rectangle < Shape
  Sides = 4

  def initialize(width, height = width)
    super
    @width, @height = width, height
  end

  def area() @width * @height end

  def describe(prefix = "the", *notes)
    super(prefix, "#@width by #@height", *notes)
  end
end

class Square < Rectangle
  def initialize(size)
    super(size)
    self.label = "box" if size > 9
  end

  def describe(*)
    super + "."
  end

  undef double?, sides

  def method_missing(name, *arguments, &block)
    if name == :grow
      Square.new(@width + (arguments.first || 1))
    elsif name.to_s.start_with? "is_"
      name.to_s[3..-1] == label
    else
      super
    end
  end
end

module Shape::Tools
  SCALE = 3

  def self.scaled(n) n * SCALE end
end

class Shape::Circle < Shape
  def initialize radius
    super()
    @radius = radius
  end

  def area; Shape::Tools::scaled @radius ** 2 end
end

class ::Round < ::Shape::Circle; end
Shape::Tools::LIMIT = 99

begin
  class Broken < Missing
  end
rescue NameError
  puts "no parent"
end

class Careful
  GOOD = 1
  WORSE = NOTHING
rescue NameError => error
  OTHER = error.name
else
  OTHER = :fine
ensure
  DONE = true
end

shapes = [Rectangle.new(2, 3), Square.make(4), Shape::Circle[2], Round.new(1), Square.new(10)]
shapes.each { |shape| puts shape.describe }
puts shapes[0].describe("one", "thin") { |text| text.upcase }
puts shapes.min_by { |shape| shape.area }.name, shapes[0] < shapes[1], shapes[2].between?(shapes[3], shapes[4])
puts shapes[1].grow.area, shapes[1].grow(5).describe, shapes[4].is_box, shapes[0].sides
puts Square.made, Rectangle.made.inspect, Round.inherited_from?(Shape), Shape.inherited_from?(Shape)
p Round.ancestors.take(5), Round.superclass, Careful::OTHER, Careful::DONE, Shape::Tools::LIMIT

[[:sides], [:double?], [:fly, 1]].each do |name, *rest|
  begin
    p shapes[1].send(name, *rest)
  rescue NoMethodError => error
    puts "no #{error.name}"
  end
end

begin
  Shape.new.area
rescue NotImplementedError => error
  puts error.message
end

class Unit
  attr_reader :text

  def initialize(text) @text = text end

  def self.op(name)
    define_method(name) { |*others| Unit.new("(#{[text, name, *others.map { |o| o.to_s }].join(" ")})") }
  end

  op :+
  op :-
  def *(o) join "*", o end
  def /(o) join("/", o) end
  def %(o) join "%", o end
  def **(o) join "**", o end
  def <<(o) join "<<", o end
  def >>(o) join ">>", o end
  def &(o) join "&", o end
  def |(o) join "|", o end
  def ^(o) join "^", o end
  def <(o) join "<", o end
  def <=(o) join "<=", o end
  def >(o) join ">", o end
  def >=(o) join ">=", o end
  def <=>(o) join "<=>", o end
  def ==(o) join "==", o end
  def !=(o) join "!=", o end
  def ===(o) text == o.to_s end
  def [](*o) join "[]", o.join(",") end
  def []=(i, o) @text = "#{@text}[#{i}]=#{o}" end
  def +@() Unit.new("+" + text) end
  def -@() Unit.new("-" + text) end
  def ~() Unit.new("~" + text) end
  def !() Unit.new("!" + text) end
  def call(*o) join "()", o.join(",") end
  def to_s; text end
  def size=(n) @text = "#{text}##{n}" end
  def if(then_, else_ = nil) else_ ? join("if", then_) : then_ end
  def end; "end" end

  private

  def join(name, other)
    Unit.new("(#{text} #{name} #{other})")
  end
end

a, b, c = Unit.new("a"), Unit.new("b"), Unit.new("c")
puts a + b * c - a, a ** b ** c, -a ** b, (!a ** b), ~a / +b % c
puts a << b & c | a ^ b >> c, (a < b), (a <= b) == c, (a != b), (a <=> b), a > b >= c
puts a[1, b], a.(b, 2), a::call(c), a.if(b), a.end, a & b == c | a
a[0] = 5
a[1] += 6
a.size = 7
puts a
d = Unit.new "d"
d += b
d *= c
d **= 2
d <<= 1
d |= 0
puts d
puts case "b" when a then "a" when b, c then "b or c" end

class Tally < Class.new(Array)
  Shape::Tools::TOTAL = 0
  Shape::Tools::TOTAL ||= 5

  def each(*)
    super { |x| yield x, @seen = (@seen || 0) + 1 }
    super() do |x| @last = x end
    [@seen, @last]
  end

  def push(first, *rest, &block)
    super first, *rest
    block ? map(&block) : self
  end

  def map(*list, &block)
    super(*list, &block)
  end
end

tally = Tally.new
p tally.push(1, 2) { |x| x + 1 }, tally.push(3).size, tally.each { |x, n| print x * n, " " }
class << tally.first(1)
  def alone?; size == 1 end
  p same = (self == Array)
end
module Scopes; Inner = Module.new end
inner = Scopes
class inner::Made; def self.where; name end end
module inner::Inner
  Deep = :deep
end
p Scopes::Made.where, inner::Inner::Deep, inner::Inner.name, Shape::Tools::TOTAL

thing = Object.new
def thing.hello(name = "you") "hello #{name}" end
def (shapes.first).area; 0 end
def Round.unit() new 1 end
class << thing
  attr_accessor :mood
  alias greet hello
  def hello(*names)
    names.empty? ? super() : super(names.join("+"))
  rescue NoMethodError
    "#{greet(*names)}!"
  end
end
thing.mood = :fine
puts thing.hello, thing.greet("me"), thing.mood, shapes[0].area, Round.unit.area
thing.extend(Named)
puts thing.name, thing.is_a?(Named), Object.new.respond_to?(:hello)
puts thing.singleton_class.method_defined?(:greet), Shape.const_get(:Tools).name, Integer("12") + 1
