# What the main object has of its own: include, define_method, public and private act on Object.
module Greeting
  def greeting
    "hello from #{self.class}"
  end
end

module Doubling
  def twice
    [self, self]
  end
end

p include(Greeting, Doubling)
puts greeting, 5.greeting, [].greeting
p :a.twice, nil.twice
p Object.ancestors.take(3)

p define_method(:shout) { |text = "none"| text.upcase + "!" }
puts shout("here"), shout, 7.shout("number")

# Whether a call is refused since the method is private.
def refused
  yield
  false
rescue NoMethodError
  true
end

private

def hidden
  :hidden
end

public

def seen
  hidden
end

p hidden, seen, 3.seen
p refused { 3.hidden }, refused { 3.seen }, refused { self.hidden }

private :seen
p seen, refused { "x".seen }
public :hidden
p "x".hidden, refused { "x".hidden }

# The body of a class begins with its own default.
private

class Box
  def open
    seen
  end
end

def last
  :last
end

p Box.new.open, last, refused { Box.new.last }

begin
  include 5
rescue TypeError => error
  puts error.class
end
begin
  private :no_such_method
rescue NameError => error
  puts error.class, error.name.inspect
end
p to_s, inspect, self.class

# What the main program defines comes before the methods that every object has, and reaches these by super.
def method_missing(name, *arguments)
  name == :ghost ? [:ghost, arguments] : super
end

p ghost, 5.ghost(1, 2)
begin
  nobody(1)
rescue NoMethodError => error
  p error.name
end

class Object
  def inspect
    "<" + super + ">"
  end
end

p Box.new.inspect[0, 6], :a, [nil]
