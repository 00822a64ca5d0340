# A stack, a queue and a ring buffer, each over a common container.
class Container
  class Empty < StandardError
    def initialize(kind)
      super("#{kind} is empty")
    end
  end

  include Enumerable

  def initialize(*items)
    @items = items
    items.each { |item| check item }
  end

  def size
    @items.size
  end

  alias length size

  def empty?
    size == 0
  end

  def each(&block)
    @items.each(&block)
    self
  end

  def to_s
    "#{self.class.name.downcase}(#{to_a.join(' ')})"
  end

  def <<(item)
    put item
    self
  end

  def check(item)
    raise ArgumentError, "nil isn't taken" if item.nil?
  end
end

class Stack < Container
  def put(item)
    check(item)
    @items.push item
  end

  def take
    raise Empty.new("stack") if empty?
    @items.pop
  end

  def top() @items.last end
end

class Queue2 < Container
  def put(item)
    check(item)
    @items.push(item)
  end

  def take
    raise Empty.new(:queue) unless size > 0
    @items.shift
  end
end

class Ring
  attr_accessor :dropped

  def initialize room
    @room, @slots, @start, @count = room, Array.new(room), 0, 0
    self.dropped = 0
  end

  def put(item)
    if @count == @room
      @start = (@start + 1) % @room
      @count -= 1
      self.dropped += 1
    end
    @slots[(@start + @count) % @room] = item
    @count += 1
    item
  end

  def take
    return nil if @count.zero?
    item = @slots[@start]
    @slots[@start] = nil
    @start = (@start + 1) % @room
    @count -= 1
    item
  end

  def to_a
    list = []
    @count.times { |i| list << @slots[(@start + i) % @room] }
    list
  end
end

stack = Stack.new 1, 2
stack << 3 << 4
puts stack, stack.top, stack.length
puts stack.take + stack.take
p stack.map { |n| n * n }

queue = Queue2.new
%w(a b c).each { |name| queue << name }
puts queue
first, second = queue.take, queue.take
puts "#{first}#{second} #{queue.size}"
puts queue.include?("c"), queue.to_a.inspect

begin
  3.times { queue.take }
rescue Container::Empty => error
  puts "error: #{error.message}"
end

begin
  stack << nil
rescue ArgumentError, TypeError => error
  puts "#{error.class}: #{error.message}"
else
  puts "never"
ensure
  puts stack
end

ring = Ring.new(3)
(1..5).each do |n|
  ring.put(n)
end
p ring.to_a, ring.dropped
p ring.take, ring.take, ring.to_a
ring.put 6
ring.put 7
p ring.to_a
until ring.take.nil?
  print "."
end
puts
p ring.to_a

def balanced?(text)
  pairs = { ")" => "(", "]" => "[", "}" => "{" }
  open = Stack.new
  text.each_char do |c|
    case c
    when "(", "[", "{" then open << c
    when ")", "]", "}"
      return false if open.empty? or open.take != pairs[c]
    end
  end
  open.empty?
end

["(a[b]{c})", "(]", "((", ""].each do |text|
  puts "#{text.inspect}: #{balanced?(text) ? 'yes' : 'no'}"
end
