# A fiber that yields wherever a core method calls the program: to_s, ==, <=>, each, method_missing, blocks of all kinds.
class Item
  attr_reader :v
  def initialize(v = 0) Fiber.yield [:init, v]; @v = v end
  def to_s; Fiber.yield [:to_s, @v]; "Y#{@v}" end
  def inspect; Fiber.yield [:inspect, @v]; "I#{@v}" end
  def ==(o) Fiber.yield [:eq, @v]; o.is_a?(Item) && @v == o.v end
  def <=>(o) Fiber.yield [:cmp, @v]; @v <=> o.v end
  def +(o) Fiber.yield [:plus, @v]; Sum.new(@v + o.v) end
  def each; Fiber.yield [:each]; yield @v; Fiber.yield [:each2]; yield @v + 1; :eachend end
  def call(x) Fiber.yield [:call, x]; x end
  def ===(o) Fiber.yield [:eqq, o]; o == @v end
  include Comparable
  include Enumerable
  def self.make(v) y = allocate; y.instance_variable_set(:@v, v); y end
end

class Missing
  def method_missing(n, *a, &b) Fiber.yield [:mm, n, a]; b ? b.call(n) : n end
end

class Sum
  attr_reader :v
  def initialize(v) @v = v end
end

# Runs the block in a fiber and writes what each resume of it gave.
def drive(&b)
  f = Fiber.new { r = b.call; [:end, r] }
  log = []
  n = 0
  loop do
    r = f.resume(*(n.odd? ? [n] : []))
    n += 1
    log << r
    break if r.is_a?(Array) && r[0] == :end
  end
  puts log.map { |l| l.inspect }.join(" ")
end

a, b, c = Item.make(1), Item.make(2), Item.make(3)
drive { Item.new(5).v }
drive { "#{a}|#{b}" }
drive { [a, [b]].to_s }
drive { {a => b}.inspect }
drive { [a, b].include?(b) }
drive { [a, b].index(c) }
drive { a != b }
drive { [a, b] == [a, b] }
drive { a < b }
drive { a.between?(b, c) }
drive { a.inject { |x, y| Fiber.yield [:inj, x, y]; x + y } }
drive { Missing.new.foo(1) { |n| Fiber.yield [:blk]; n } }
drive { case 2 when a then 1 when b then 2 end }
drive { [a, b].inject(:+).v }
drive { [1, 2, 3].each_with_object([]) { |x, m| m << Fiber.yield(x) } }
drive { Hash.new { |h, k| Fiber.yield [:default, k]; h[k] = 1 }[:zz] }
drive { {q: 1}.fetch(:r) { |k| Fiber.yield [:fetch, k]; 9 } }
drive { [3, 1, 2].sort_by { |x| Fiber.yield x; x } }
drive { [3, 1].map! { |x| Fiber.yield x } }
drive { [1, 2, 3, 4].delete_if { |x| Fiber.yield x; x.even? } }
drive { 2.times { |i| Fiber.yield i } }
drive { 1.upto(3) { |i| Fiber.yield i } }
drive { "ab".each_char { |i| Fiber.yield i } }
drive { (1..3).each_slice(2) { |i| Fiber.yield i } }
drive { Array.new(2) { |i| Fiber.yield [:new, i]; i * 2 } }
drive { [1, 2].each_with_index.class } if false
drive { begin; Fiber.yield 1; raise "x"; rescue => e; Fiber.yield e.message; ensure; Fiber.yield :ens; end }
drive { [[1, 2], [3, 4]].each { |x, y| Fiber.yield x + y }; lambda { |z| Fiber.yield z; z }.call(7) }
drive { [1, 2].each { |x| break Fiber.yield(x) } }
drive { a.zip([1, 2]) }
drive { puts a; p b; print c, "\n" }
drive { [a, b].uniq.length }
drive { [a].join("-") }
drive { {1 => a}.value?(a) }
drive { {1 => a} == {1 => a} }
drive { [a, b].delete(b).v }
drive { [a, b].count(a) }
drive { Class.new(Item).new(4).v }
drive { Missing.new.send(:bar, 1) }
drive { a.tap { |x| Fiber.yield x.v }.v }
drive { a.then { |x| Fiber.yield x.v } }
drive { loop { Fiber.yield 1; break 2 } }
drive { [5].each(&->(x) { Fiber.yield x }) }
drive { %w[a b].map(&:upcase).each { |x| Fiber.yield x } }
drive { define = Object.new; def define.x; yield Fiber.yield(:in); end; define.x { |v| v } }
