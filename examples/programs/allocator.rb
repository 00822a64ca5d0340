# Blocks of a memory that are given out, taken back and joined; a block that a call uses is given back however it ends.
class Heap
  class OutOfMemory < StandardError
    def initialize(n, free) super("need #{n}, largest free #{free}") end
  end
  Block = Class.new
  class Block
    attr_accessor :at, :size, :used
    def initialize(at, size, used = false) @at, @size, @used = at, size, used end
    def to_s; "#{used ? "[" : "("}#{at}+#{size}#{used ? "]" : ")"}" end
  end
  def initialize(n) @blocks = [Block.new(0, n)] end
  def alloc(n)
    raise ArgumentError, "bad size" if n <= 0
    b = @blocks.reject(&:used).select { |x| x.size >= n }.min_by { |x| [x.size, x.at] }
    raise OutOfMemory.new(n, largest) if b.nil?
    if b.size > n
      @blocks.insert(@blocks.index(b) + 1, Block.new(b.at + n, b.size - n))
      b.size = n
    end
    b.used = true
    return b.at unless block_given?
    begin
      yield b.at
    ensure
      free(b.at)
    end
  end
  def free(at)
    b = @blocks.find { |x| x.at == at && x.used } or raise KeyError, "not allocated: #{at}"
    b.used = false
    i = 0
    while i < @blocks.length - 1
      x, y = @blocks[i], @blocks[i + 1]
      if x.used || y.used then i += 1
      else
        x.size += y.size
        @blocks.delete_at(i + 1)
      end
    end
    nil
  end
  def largest; @blocks.reject { |b| b.used }.map { |b| b.size }.max || 0 end
  def to_s; @blocks.join end
end
h = Heap.new(100)
a, b, c = h.alloc(10), h.alloc(20), h.alloc(30)
puts h
h.free(b)
puts h
d = h.alloc(15)
puts h, d
h.free(a); h.free(c)
puts h
begin
  h.alloc(200)
rescue Heap::OutOfMemory => e
  puts e.message
end
begin
  h.free(3)
rescue KeyError => e
  puts e.message
end
p h.alloc(40) { |at| puts "using #{at}: #{h}"; at * 2 }
puts h
begin
  h.alloc(5) { |at| raise "inside #{at}" }
rescue => e
  puts e.message, h
end
p [1, 2, 3].each { |n| h.alloc(n) { |at| break at } }, h.largest
def nested(h, n) n == 0 ? h.to_s : h.alloc(n) { nested(h, n - 1) } end
puts nested(h, 4), h
