# A linked list with the usual methods, its operators and nested assignments over its items.
class List
  class Node
    attr_accessor :value, :link

    def initialize(value, link = nil)
      @value = value
      @link = link
    end
  end

  include Enumerable

  def self.of(*values)
    values.reverse.inject(new) { |list, value| list.unshift value }
  end

  def initialize
    @head = nil
    @size = 0
  end

  attr_reader :size

  def unshift(value)
    @head = Node.new(value, @head)
    @size += 1
    self
  end

  def push(value)
    node = Node.new value
    if @head
      last = @head
      last = last.link while last.link
      last.link = node
    else
      @head = node
    end
    @size += 1
    self
  end

  alias << push

  def each
    node = @head
    until node.nil? do
      yield node.value
      node = node.link
    end
    self
  end

  def node_at(index)
    index += @size if index < 0
    node = @head
    index.times { node = node.link if node }
    index < 0 ? nil : node
  end

  def [](index)
    node = node_at(index)
    node && node.value
  end

  def []=(index, value)
    node = node_at(index) or raise IndexError, "no node #{index}"
    node.value = value
  end

  def +(other)
    List.of(*to_a, *other.to_a)
  end

  def ==(other)
    other.is_a?(List) && to_a == other.to_a
  end

  def reverse!
    previous, node = nil, @head
    while node
      node.link, previous, node = previous, node, node.link
    end
    @head = previous
    self
  end

  def delete(value)
    before = nil
    node = @head
    begin
      break unless node
      if node.value == value
        before ? before.link = node.link : @head = node.link
        @size -= 1
      else
        before = node
      end
      node = node.link
    end while node
    self
  end

  def to_s
    "(#{to_a.join(' -> ')})"
  end
end

list = List.of(1, 2, 3)
list << 4
puts list, list.size
puts list[0], list[-1], list[9].inspect
list[1] = 20
list[1] += 2
puts list
puts list.reverse!
puts list + List.of(5, 6)
puts list == List.of(4, 3, 22, 1)
puts list != List.of
puts list.delete(22).delete(4).delete(99)
list[0] ||= 7
puts list.sort.inspect, list.min, list.sum

begin
  list[12] = 0
rescue IndexError => e
  puts e.message
end

first, *rest = *List.of(1, 2, 3, 4).to_a
p first, rest
*front, last = List.of(5, 6, 7).to_a
p front, last
a, (b, *c), d = 1, [2, 3, 4], 5
p [a, b, c, d]
(x, y), z = [[1, 2], 3]
p x + y * z
head, = [10, 11]
p head
*, tail = [12, 13]
p tail
one, *, three = 1, 2, 2, 3
p [one, three]
pair = 1, 2
all = *pair, 3
p pair, all
m = *1..3
p m
list[0], list[1], @other, $global = 9, 8, 7, 6
puts list, "#@other #$global"
