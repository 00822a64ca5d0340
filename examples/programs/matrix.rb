# Matrices of integers with operators, powers, determinants and a solver over fractions.
class Fraction
  include Comparable
  attr_reader :top, :bottom

  def initialize(top, bottom = 1)
    raise ZeroDivisionError, "bottom is 0" if bottom == 0
    top, bottom = -top, -bottom if bottom < 0
    common = divisor(top.abs, bottom)
    @top = top / common
    @bottom = bottom / common
  end

  def +(other)
    other = lift other
    Fraction.new top * other.bottom + other.top * bottom, bottom * other.bottom
  end

  def -(other) self + -lift(other) end

  def *(other)
    other = lift(other)
    Fraction.new(top * other.top, bottom * other.bottom)
  end

  def /(other)
    other = lift(other)
    Fraction.new(top * other.bottom, bottom * other.top)
  end

  def -@
    Fraction.new(-top, bottom)
  end

  def +@; self; end

  def !
    top == 0
  end

  def ~
    Fraction.new(bottom, top)
  end

  def <=>(other)
    other = lift(other)
    top * other.bottom <=> other.top * bottom
  end

  def zero?() top.zero? end

  def to_s
    bottom == 1 ? top.to_s : "#{top}/#{bottom}"
  end

  private

  def lift(value)
    value.is_a?(Fraction) ? value : Fraction.new(value)
  end

  def divisor(a, b)
    a, b = b, a % b while b != 0
    a == 0 ? 1 : a
  end
end

class Matrix
  def self.[](*rows) new(rows) end

  def Matrix.identity(n)
    new((0...n).map { |i| (0...n).map { |j| i == j ? 1 : 0 } })
  end

  def initialize(rows)
    @rows = rows
  end

  attr_reader :rows

  def size; rows.size; end

  def [](i, j = nil)
    j ? rows[i][j] : rows[i]
  end

  def []=(i, j, value)
    rows[i][j] = value
  end

  def ==(other)
    other.instance_of?(Matrix) and rows == other.rows
  end

  def +(other) combine(other) { |a, b| a + b } end
  def -(other) combine(other) { |a, b| a - b } end

  def *(other)
    return Matrix.new(rows.map { |row| row.map { |x| x * other } }) unless other.is_a? Matrix
    columns = other.rows.transpose
    Matrix.new(rows.map { |row|
      columns.map { |column| row.zip(column).inject(0) { |sum, (a, b)| sum + a * b } }
    })
  end

  def **(n)
    result, base = Matrix.identity(size), self
    until n == 0
      result *= base if n & 1 == 1
      base *= base
      n >>= 1
    end
    result
  end

  def %(n)
    Matrix.new(rows.map { |row| row.map { |x| x % n } })
  end

  def -@
    self * -1
  end

  def transpose
    Matrix.new(rows.transpose)
  end

  def minor(i, j)
    left = []
    rows.each_with_index do |row, k|
      next if k == i
      left << row.take(j) + row.drop(j + 1)
    end
    Matrix.new left
  end

  def determinant
    return rows[0][0] if size == 1
    sign = -1
    total = 0
    size.times do |j|
      sign = -sign
      total += sign * self[0, j] * minor(0, j).determinant
    end
    total
  end

  def solve(right)
    work = rows.zip(right).map { |row, x| (row + [x]).map { |n| Fraction.new(n) } }
    size.times do |i|
      pivot = (i...size).find { |k| !work[k][i].zero? }
      return nil if pivot.nil?
      work[i], work[pivot] = work[pivot], work[i]
      by = work[i][i]
      work[i].map! { |x| x / by }
      size.times do |k|
        next if k == i || !work[k][i]
        by = work[k][i]
        work[k] = work[k].zip(work[i]).map { |x, y| x - y * by }
      end
    end
    work.map { |row| row.last }
  end

  def to_s
    width = rows.flatten.map { |x| x.to_s.size }.max
    rows.map { |row| "[" + row.map { |x| x.to_s.rjust(width) }.join(" ") + "]" }.join("\n")
  end

  private

  def combine(other)
    Matrix.new(rows.zip(other.rows).map { |a, b| a.zip(b).map { |x, y| yield x, y } })
  end
end

m = Matrix[[1, 2], [3, 4]]
n = Matrix[[0, 1], [1, 1]]
puts m + n, m - n, m * n, -m
puts m * 3 == m + m + m, m != n
puts n ** 10, (n ** 40 % 1000)[0, 1]
puts m.transpose, m.determinant
m[0, 1] += 5
m[1, 0] ||= 9
puts m, m[1].inspect
big = Matrix[[2, -1, 0], [-1, 2, -1], [0, -1, 2]]
puts big.determinant, big.minor(1, 1)
puts big.solve([1, 2, 3]).map { |x| x.to_s }.join(", ")
p Matrix[[1, 2], [2, 4]].solve([1, 2])

half = Fraction.new 1, 2
third = Fraction.new(-2, -6)
puts half + third, half - third, half * third, half / third, -half, +third, ~third
puts half > third, [half, third].map { |f| f.to_s }.inspect, half == Fraction.new(2, 4)
puts half.between?(0, 1), half.clamp(1, 2), !half, (!Fraction.new(0))
begin
  Fraction.new(1, 0)
rescue ZeroDivisionError => e
  puts e.message
end
