# A text formatter: fills, justifies, centres, draws boxes and tables and expands names in a template.
class Formatter
  WIDTH = 34

  attr_writer :width

  def width
    @width ||= WIDTH
  end

  def paragraphs(text)
    result, current = [], []
    text.each_line do |line|
      if line.strip.empty?
        result << current unless current.empty?
        current = []
      else current.concat(line.split)
      end
    end
    current.empty? ? result : result << current
  end

  def fill(words, width = self.width)
    lines = []
    line = ""
    words.each do |word|
      if line.empty?
        line = word.dup
      elsif line.size + 1 + word.size <= width
        line << " " << word
      else
        lines << line
        line = word.dup
      end
    end
    lines << line
  end

  def justify(line, width = self.width)
    words = line.split " "
    return line if words.size == 1
    room = width - words.inject(0) { |sum, word| sum + word.length }
    gap, more = room.divmod(words.size - 1)
    text = words.shift
    words.each_with_index do |word, i|
      text += " " * (i < more ? gap + 1 : gap)
      text += word
    end
    text
  end

  def block(text)
    paragraphs(text).map { |words|
      lines = fill(words)
      last = lines.pop
      (lines.map { |line| justify(line) } << last).join("\n")
    }.join("\n\n")
  end

  def box(lines, corner = ?+, side = ?|)
    inner = lines.map { |line| line.length }.max
    edge = corner + '-' * (inner + 2) + corner
    [edge, *lines.map { |line| "#{side} #{line.center(inner)} #{side}" }, edge].join("\n")
  end

  def table(head, *rows)
    all = [head] + rows.map { |row| row.map { |cell| cell.to_s } }
    sizes = all.transpose.map { |column| column.map(&:size).max }
    lines = all.map do |row|
      row.zip(sizes).map { |cell, size|
        number?(cell) ? cell.rjust(size) : cell.ljust(size)
      }.join(" | ").rstrip
    end
    lines.insert(1, sizes.map { |size| "-" * size }.join("-+-"))
  end

  def expand(template, names)
    names.inject(template) do |text, (name, value)|
      text.gsub("{" + name.to_s + "}", value.to_s)
    end
  end

  def columns(items, count)
    size = items.map { |item| item.size }.max + 2
    items.each_slice(count) { |row|
      puts row.map { |item| item.ljust(size, ".") }.join.chop
    } if items.any?
  end

  private

  def number?(text)
    Integer(text)
    true
  rescue ArgumentError
    false
  end
end

f = Formatter.new
text = <<-TEXT
  It was a bright cold day in the small town,
  and the clocks of the harbour
  were all striking different hours.

  Nobody "minded", #{1 + 1} of them had #{"%s"[0, 1] * 2}
  never #{["been", "gone", "run"].join(", ")} right.
  TEXT
puts f.block(text)
puts
f.width = 20
puts f.block text
puts f.box(%w[short longer\ line x])
puts f.box(["a", "bcd"], '*', ':')
puts f.table(%w(name age town), ["Ann", 31, "Oslo"], ["Bob", 7, "Rome"], ["Cecilia", 101, ""])
puts f.expand(<<'ONE', who: "Ann", n: 3), f.expand(<<-"TWO", 'x' => :y)
Dear {who}, you have {n} new #{letters}\n.
ONE
    {x} is\t#{f.width}
    TWO
f.columns(%w/one two three four five six seven/, 3) rescue puts "none"

quote = %q(It's (nested) and \ 'plain' #{not} \(done\))
rich = %Q{She said "#{quote.size}" {twice}}
other = %<a <b> c> 'd' "e#{1}"
bars = %|x#{2 * 3}y| + %!z!
puts quote, rich, other, bars
puts "tab\tquote\" back\\ bell\a".inspect, 'it''s \n \' \\', "\x41\102\u0043\u{44}\e\s\0\a\b\f\v\r\"\q".bytes.inspect
puts "one\
 line", ?a + ?~ if defined?(f)
@at, $mark = "home", "!"
puts "#@at#$mark #{@at}#{$mark} \#@at #a @ # $"
word = "formatter"
puts word[0], word[-3..-1], word[3, 3], word["mat"], word[1...3], word["x"].inspect
word[0] = "F"
word[1, 2] = "0-"
puts word, word.capitalize.swapcase, word.index("t"), word.rindex("t"), word.sub("t", "T").insert(2, "_")
puts "  trim ".strip + "|" + "  left".lstrip + "|" + "right  ".rstrip, "a,b,,c,,".split(",").inspect
puts "line\r\n".chomp.inspect, "line".chop, "ab\ncd\n".lines.inspect, "AbC".upcase, "AbC".downcase
puts "abc".reverse.bytes.inspect, "a-b".concat("-c").replace("new"), "x".ord, :sym.to_proc.call("s") rescue puts "no sym"
puts "b" <=> "a", "a" < "b", "abc".start_with?("ab"), "abc".end_with?("bc"), "az".include?("z"), "12ab".to_i, "ff".to_i(16)
