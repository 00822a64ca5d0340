# Solves a sudoku: the free place with the fewest choices first, and back where there is none.
class Sudoku
  def initialize(s) @g = s.split("\n").map { |l| l.chars.map { |c| c == "." ? 0 : c.to_i } }; @steps = 0 end
  def ok?(r, c, v)
    return false if @g[r].include?(v)
    9.times { |i| return false if @g[i][c] == v }
    br, bc = r / 3 * 3, c / 3 * 3
    3.times { |i| 3.times { |j| return false if @g[br + i][bc + j] == v } }
    true
  end
  def solve
    @steps += 1
    best = nil
    9.times do |r|
      9.times do |c|
        next unless @g[r][c] == 0
        opts = (1..9).select { |v| ok?(r, c, v) }
        return false if opts.empty?
        best = [opts, r, c] if best.nil? || opts.length < best[0].length
      end
    end
    return true unless best
    opts, r, c = best
    opts.each do |v|
      @g[r][c] = v
      return true if solve
    end
    @g[r][c] = 0
    false
  end
  attr_reader :steps
  def to_s
    out = ""
    @g.each_with_index do |row, i|
      out << "------+------+------\n" if i > 0 && i % 3 == 0
      parts = []
      row.each_slice(3) { |t| parts << t.join(" ") }
      out << parts.join(" |") << "\n"
    end
    out
  end
end
s = Sudoku.new(<<S)
53..7....
6..195...
.98....6.
8...6...3
4..8.3..1
7...2...6
.6....28.
...419..5
....8..79
S
p s.solve, s.steps
puts s
