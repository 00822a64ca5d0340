# Integers of any size, as lists of digits to the base 10,000.
class Big
  BASE = 10000
  attr_reader :d, :neg
  def self.parse(s)
    neg = s[0] == "-"
    s = s[1..-1] if neg
    d = []
    while s.length > 0
      k = s.length > 4 ? s.length - 4 : 0
      d << s[k..-1].to_i
      s = s[0, k]
    end
    new(d, neg)
  end
  def initialize(d, neg = false)
    d = d.dup
    d.pop while d.length > 1 && d.last == 0
    @d, @neg = d.empty? ? [0] : d, neg && d != [0]
  end
  def cmp(o) d.length != o.d.length ? d.length <=> o.d.length : d.reverse <=> o.d.reverse end
  def addm(o)
    c, r = 0, []
    [d.length, o.d.length].max.times do |i|
      c, x = ((d[i] || 0) + (o.d[i] || 0) + c).divmod(BASE)
      r << x
    end
    r << c if c > 0
    r
  end
  def subm(o)
    br, r = 0, []
    d.each_with_index do |x, i|
      v = x - (o.d[i] || 0) - br
      br = v < 0 ? 1 : 0
      r << (v + (br == 1 ? BASE : 0))
    end
    r
  end
  def -@; Big.new(d, !neg) end
  def +(o)
    return Big.new(addm(o), neg) if neg == o.neg
    cmp(o) >= 0 ? Big.new(subm(o), neg) : Big.new(o.subm(self), o.neg)
  end
  def -(o) self + -o end
  def *(o)
    r = [0] * (d.length + o.d.length + 1)
    d.each_with_index do |x, i|
      c = 0
      o.d.each_with_index { |y, j| c, r[i + j] = (r[i + j] + x * y + c).divmod(BASE) }
      k = i + o.d.length
      while c > 0
        c, r[k] = (r[k] + c).divmod(BASE)
        k += 1
      end
    end
    Big.new(r, neg != o.neg)
  end
  def **(n) n == 0 ? Big.new([1]) : n.odd? ? self * self ** (n - 1) : (h = self ** (n / 2); h * h) end
  def ==(o) d == o.d && neg == o.neg end
  def to_s; (neg ? "-" : "") + d.last.to_s + d[0...-1].reverse.map { |x| x.to_s.rjust(4, "0") }.join end
end
a, b = Big.parse("123456789012345678901234567890"), Big.parse("-987654321098765432109876543210")
puts a, b, a + b, a - b, a * b, -a, a - a, Big.parse("2") ** 200, Big.parse("0") * b, Big.parse("10000") * Big.parse("10000")
f = (1..50).inject(Big.new([1])) { |m, i| m * Big.new([i]) }
puts f, f.to_s.length, f.to_s.chars.map(&:to_i).sum
x, y = Big.new([0]), Big.new([1])
300.times { x, y = y, x + y }
puts x
p Big.parse("00012") == Big.parse("12"), Big.parse("-0") == Big.parse("0"), (a + b - b) == a
