# A sorted binary tree that is Enumerable, with walks by blocks and an inner iterator as Enumerator.
class Tree
  include Enumerable

  class Node
    include Comparable
    attr_reader :key
    attr_accessor :left, :right, :value

    def initialize(key, value)
      @key, @value = key, value
    end

    def <=>(other)
      key <=> (other.is_a?(Node) ? other.key : other)
    end

    def depth
      1 + [left, right].map { |side| side ? side.depth : 0 }.max
    end
  end

  def initialize(pairs = {})
    @root = nil
    @size = 0
    pairs.each { |key, value| self[key] = value }
  end

  attr_reader :size, :root

  def []=(key, value)
    if @root.nil?
      @root = grow(key, value)
    else
      put(@root, key, value)
    end
    value
  end

  def [](key)
    node = @root
    while node and node.key != key
      node = node.key > key ? node.left : node.right
    end
    node ? node.value : nil
  end

  def key?(key) !self[key].nil? end

  def each(&block)
    in_order(@root, &block)
  end

  def by_level
    return to_enum(:by_level) unless block_given?
    row = [@root]
    until row.empty?
      below = []
      for node in row
        next unless node
        yield node.key
        below << node.left << node.right
      end
      row = below
    end
    :done
  end

  private

  def grow(key, value)
    @size += 1
    Node.new key, value
  end

  def put(node, key, value)
    if node == key then node.value = value
    elsif node < key
      node.right ? put(node.right, key, value) : node.right = grow(key, value)
    else
      node.left ? put(node.left, key, value) : node.left = grow(key, value)
    end
  end

  def in_order(node, &block)
    return if !node
    in_order(node.left, &block)
    block.call(node.key, node.value)
    in_order(node.right, &block)
  end
end

tree = Tree.new("m" => 13, "c" => 3, "t" => 20, "a" => 1)
tree["e"] = 5
tree["z"] = 26
tree["m"] = 130
puts tree.size, tree.root.depth
tree.each { |key, value| print key, "=", value, " " }
puts
puts tree["z"], tree["q"].inspect, tree.key?("a")
p tree.map { |key, value| key * 2 }
p tree.select { |_, value| value.even? }
p tree.to_a.first, tree.first(2)
puts tree.inject(0) { |sum, (key, value)| sum + value }
p tree.min_by { |_, value| -value }
p tree.sort_by { |key, value| -value }.map { |key, _| key }
p tree.include?(["a", 1]), tree.count, tree.any? { |_, v| v > 100 }
tree.each_slice(4) { |slice| puts slice.map { |pair| pair[0] }.join }
p tree.reduce { |best, pair| best[1] > pair[1] ? best : pair }

walk = tree.by_level
begin
  loop { print walk.next, " " }
  puts
  walk.rewind
  puts walk.peek, walk.next, walk.next
end
p tree.by_level { |key| break key if key > "m" }
p tree.by_level { |key| key }

node = Tree::Node.new(5, :five)
puts node > 4, node.between?(1, 5), node.clamp(6, 9)
puts node == 5, node != 6, node <= 4
