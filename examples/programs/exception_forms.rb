# Forms of raise, of rescue clauses and of their targets, with own messages, `to_s` and `initialize`.
class E1 < StandardError
  def to_s; "to_s of E1"; end
end
begin; raise E1; rescue => e; p e.message, e.inspect, e.to_s, "#{e}"; puts e; end
begin; raise E1, "given"; rescue => e; p e.message, e.inspect; end
class E2 < StandardError
  def initialize(a, b) @a, @b = a, b end
  def message; "#{@a}-#{@b}" end
end
begin; raise E2.new(1, 2); rescue => e; p e.message, e.to_s, e.inspect; end
class E3 < StandardError
  def initialize(m = "default three") super end
end
begin; raise E3; rescue => e; p e.message; end
begin; raise E3, "x"; rescue => e; p e.message; end
begin; raise E3.new; rescue => e; p e.message; end
class E4 < StandardError
  def initialize(*a) super(a.inspect) end
end
begin; raise E4, "x"; rescue => e; p e.message; end
begin; raise E4; rescue => e; p e.message; end
begin; raise nil; rescue TypeError => e; p e.class; end
begin; raise "a", "b"; rescue TypeError => e; p e.class; end
begin; raise E3, nil; rescue => e; p e.message; end
begin; raise E3, :sym; rescue => e; p e.message; end
begin; raise E3, 5; rescue => e; p e.message; end
begin; raise E3, ""; rescue => e; p e.message, e.inspect; end
def wrap; yield; rescue E3, E4 => e; "#{e.class}:#{e.message}"; else :none; ensure print "."; end
p wrap { raise E3 }, wrap { raise E4, 1 }, wrap { 5 }
LIST = [ZeroDivisionError, TypeError]
def pick(k) k == 0 ? ZeroDivisionError : TypeError end
begin; 1 / 0; rescue pick(0) => e; p e.class; end
begin; begin; 1 / 0; rescue pick(1) => e; p :no; end; rescue => e; p e.class; end
h = {}
begin; raise "into hash"; rescue => h[:err]; end
p h[:err].message
class Holder; attr_accessor :err; end
o = Holder.new
begin; raise "into attr"; rescue => o.err; end
p o.err.message
begin; raise "ivar"; rescue => @e; end
p @e.message
begin; raise "gvar"; rescue => $e; end
p $e.message
x = begin; raise "v"; rescue; "rescued" else "else" ensure "ensure" end
p x
def nested
  yield 1
rescue ArgumentError
  yield 2
ensure
  yield 3
end
r = []
begin
  nested { |n| r << n; raise ArgumentError if n == 1; raise TypeError, "t" if n == 2 }
rescue TypeError => e
  p e.message, r
end
def reraise
  begin
    raise "orig"
  rescue => e
    raise e
  end
end
begin; reraise; rescue => e; p e.message; end
e1 = RuntimeError.new("same")
begin; raise e1; rescue => e2; p e1.equal?(e2); end
begin; raise e1, "changed"; rescue => e3; p e3.message, e1.message, e3.class; end
p RuntimeError.new("m").message, RuntimeError.new.message, Exception.new(5).message, Exception.new([1]).message
c = 0
begin
  c += 1
  raise IndexError, "try #{c}" if c < 3
  p c
rescue IndexError => e
  puts e.message
  retry
ensure
  puts "once"
end
t = [1, 0, "a", nil].map do |d|
  10 / d
rescue ZeroDivisionError
  :zero
rescue TypeError, NoMethodError
  :type
else
  :fine
ensure
  print "*"
end
puts
p t
l = ->(v) do
  Integer(v)
rescue ArgumentError => e
  e.class
ensure
  print "L"
end
p l["5"], l["q"]
