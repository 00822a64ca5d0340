# What has changed between two texts, by their longest common lines.
def lcs(a, b)
  t = Array.new(a.length + 1) { [0] * (b.length + 1) }
  a.each_with_index { |x, i| b.each_with_index { |y, j| t[i + 1][j + 1] = x == y ? t[i][j] + 1 : [t[i][j + 1], t[i + 1][j]].max } }
  t
end
def diff(a, b)
  t = lcs(a, b)
  i, j, out = a.length, b.length, []
  until i == 0 && j == 0
    if i > 0 && j > 0 && a[i - 1] == b[j - 1]
      out.unshift([" ", a[i -= 1]])
      j -= 1
    elsif j > 0 && (i == 0 || t[i][j - 1] >= t[i - 1][j])
      out.unshift(["+", b[j -= 1]])
    else
      out.unshift(["-", a[i -= 1]])
    end
  end
  out
end
old = <<O.lines.map(&:chomp)
def hello
  puts "hi"
end

x = 1
y = 2
O
new = <<N.lines.map(&:chomp)
def hello(name)
  puts "hi"
  puts name
end

x = 1
N
d = diff(old, new)
d.each { |m, l| puts "#{m} #{l}" }
p d.group_by { |m, _| m }.map { |m, l| [m, l.length] }.sort
p diff([], []), diff([1], []), diff([], [2]), diff([1, 2], [1, 2]).map { |m, _| m }.uniq
p diff("kitten".chars, "sitting".chars).map { |m, c| m == " " ? c : m + c }.join
