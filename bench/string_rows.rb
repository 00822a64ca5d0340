# Prints the calls of crates/string_row_tests/src/calls/results.rt with what this Ruby gives.
# Usage: ruby bench/string_rows.rb > crates/string_row_tests/src/calls/results.rt
# encoding: binary

CALLS = [
  ["+", ["abc", "def"], ["", ""], ["a", ""], ["\xff", "\x00"]],
  ["*", ["ab", 3], ["ab", 0], ["", 5], ["x", 1]],
  ["==", ["a", "a"], ["a", "b"], ["", ""], ["a", "ab"], ["a", nil], ["1", 1], ["a", 1..2]],
  ["<=>", ["a", "b"], ["b", "a"], ["a", "a"], ["", "a"], ["ab", "a"], ["\xff", "a"], ["a", nil], ["a", 1]],
  ["<", ["a", "b"], ["b", "a"], ["a", "a"]],
  ["<=", ["a", "b"], ["b", "a"], ["a", "a"]],
  [">", ["a", "b"], ["b", "a"], ["a", "a"]],
  [">=", ["a", "b"], ["b", "a"], ["a", "a"]],
  ["[]", ["hello", 0], ["hello", 4], ["hello", 5], ["hello", -1], ["hello", -5], ["hello", -6], ["", 0],
   ["hello", 1, 3], ["hello", 5, 1], ["hello", 6, 1], ["hello", -3, 2], ["hello", 1, -1], ["hello", 2, 99],
   ["hello", -6, 2], ["hello", 0, 0], ["hello", 1..3], ["hello", 1...3], ["hello", -3..-1], ["hello", 5..9],
   ["hello", 6..9], ["hello", 3..1], ["hello", -9..2], ["hello", "ell"], ["hello", "lo!"], ["hello", ""]],
  ["[]=", ["hello", 0, "J"], ["hello", -1, "!"], ["hello", 5, "!"], ["hello", 1, ""], ["hello", 1, 3, "ipp"],
   ["hello", 1, 0, "--"], ["hello", 2, 99, "y"], ["hello", -2, 1, "LL"], ["", 0, "a"]],
  ["length", [""], ["abc"], ["\xc3\xa9"]],
  ["size", ["ab"]],
  ["bytesize", ["\xc3\xa9"]],
  ["bytes", [""], ["abc"], ["\x00\xff"]],
  ["chars", [""], ["abc"], ["a\xff"]],
  ["lines", [""], ["a"], ["a\nb"], ["a\nb\n"], ["\n\n"]],
  ["upcase", ["aBc1"], ["\xe9z"]],
  ["downcase", ["AbC1"], [""]],
  ["capitalize", ["hELLO"], ["1a"], [""]],
  ["swapcase", ["hELLO 1"]],
  ["reverse", ["abc"], [""], ["ab"]],
  ["strip", ["  a b \n"], [""], ["\t\n\v\f\r a\0"]],
  ["lstrip", ["  a "], ["a"]],
  ["rstrip", [" a  "], ["a\0"]],
  ["chomp", ["a\n"], ["a\r\n"], ["a\r"], ["a\n\n"], ["a"], [""]],
  ["chop", ["ab"], ["a\r\n"], [""], ["a"]],
  ["<<", ["ab", "c"], ["", ""], ["a", "\xff"]],
  ["concat", ["a"], ["a", "b"], ["a", "b", "c"], ["a", "", "\n"]],
  ["replace", ["abc", "x"], ["abc", ""]],
  ["insert", ["abc", 0, "X"], ["abc", 3, "X"], ["abc", -1, "X"], ["abc", -4, "X"], ["abc", 1, "--"]],
  ["include?", ["hello", "ll"], ["hello", "lo!"], ["hello", ""], ["", "a"]],
  ["start_with?", ["hello", "he"], ["hello", "lo"], ["hello", "x", "he"], ["hello"], ["hello", ""]],
  ["end_with?", ["hello", "lo"], ["hello", "he"], ["hello", "x", "o"], ["hello"]],
  ["index", ["hello", "l"], ["hello", "l", 3], ["hello", "l", 4], ["hello", "l", -2], ["hello", "", 5],
   ["hello", "", 6], ["hello", "z"], ["hello", "o", -9], ["hello", "h", 0]],
  ["rindex", ["hello", "l"], ["hello", "z"], ["hello", ""], ["hello", "hello"]],
  ["sub", ["hello", "l", "L"], ["hello", "z", "L"], ["hello", "", "-"], ["hello", "l", "[\\0]"],
   ["hello", "l", "\\\\"], ["hello", "l", "<\\`|\\'>"], ["hello", "ell", "\\1i"]],
  ["gsub", ["hello", "l", "L"], ["hello", "", "-"], ["aaa", "aa", "b"], ["hello", "z", ""], ["a.b.c", ".", ""],
   ["hello", "l", "<\\&>"]],
  ["split", [" a  b c "], ["a,b,,c,,", ","], ["abc", ""], [" a b ", " "], ["", ","], ["a--b", "--"], [",a", ","],
   ["a\tb\nc"]],
  ["center", ["ab", 6], ["ab", 5], ["ab", 2], ["ab", 1], ["ab", -3], ["ab", 7, "xy"], ["", 3, "1"]],
  ["ljust", ["ab", 5], ["ab", 1], ["ab", 6, "12"]],
  ["rjust", ["ab", 5], ["ab", 1], ["ab", 7, "12"]],
  ["to_i", ["42"], ["-17abc"], ["  12"], ["abc"], [""], ["1_000"], ["1__0"], ["+5"], ["9223372036854775807"],
   ["-9223372036854775808"], ["ff", 16], ["0xff", 16], ["0b101", 2], ["0o17", 8], ["z", 36], ["12", 3], ["9", 8],
   ["- 5"]],
  ["to_s", ["abc"], [""]],
  ["to_sym", ["abc"], ["a b"], [""]],
  ["intern", ["length"]],
  ["empty?", [""], ["a"]],
  ["ord", ["a"], ["\xff\x00"]],
  ["inspect", ["abc"], ["a\"b\\c"], ["\n\t\r\e\a\b\f\v"], ["\x00\x7f\xff"], ["\#{x} \#$x \#@x # \#"], [""]],
].freeze

def bytes(text)
  inner = text.bytes.map do |b|
    case b
    when 34 then "\\\""
    when 92 then "\\\\"
    when 10 then "\\n"
    when 32..126 then b.chr
    else format("\\x%02x", b)
    end
  end
  "b\"#{inner.join}\""
end

def operand(value)
  case value
  when nil then "Nothing"
  when Integer then value < 0 ? "Number(#{value})" : "Number(#{value})"
  when String then "Letters(#{bytes(value)})"
  when Range then "Between(#{value.first}, #{value.last}, #{value.exclude_end?})"
  end
end

# The rows that give their receiver. CRuby does so elsewhere, too, as `"".capitalize`, and mruby gives a copy.
GIVES_RECEIVER = %w[<< concat replace insert to_s].freeze

def wanted(name, given, receiver, before)
  return "Changed(#{bytes(receiver)})" if given.equal?(receiver) && receiver != before
  return "SAME" if given.equal?(receiver) && GIVES_RECEIVER.include?(name)
  return "Put(#{bytes(receiver)})" if receiver != before
  case given
  when nil then "NOTHING"
  when true then "YES"
  when false then "NO"
  when Integer then "Gives(Int(#{given}))"
  when String then "Text(#{bytes(given)})"
  when Symbol then "Name(#{bytes(given.to_s)})"
  when Array
    if given.all?(Integer) && !given.empty?
      "Integers(&[#{given.join(', ')}])"
    else
      "Texts(&[#{given.map { |text| bytes(text) }.join(', ')}])"
    end
  end
end

rows = []
CALLS.each do |name, *calls|
  calls.each do |call|
    receiver = call[0].b
    args = call[1..].map { |arg| arg.is_a?(String) ? arg.b : arg }
    before = receiver.dup
    given = receiver.public_send(name, *args)
    changed = wanted(name, given, receiver, before)
    changed = "Put(#{bytes(receiver)})" if name == "[]="
    changed = "Integers(&[])" if name == "bytes" && given.empty?
    rows << "    (#{bytes(name)}, #{bytes(before)}, &[#{args.map { |arg| operand(arg) }.join(', ')}], #{changed}),"
  end
end

puts "//! Calls of methods of String with what CRuby 3.1 gives: printed by bench/string_rows.rb."
puts "use super::*;"
rows.each_slice(45).with_index do |slice, i|
  puts
  puts "/// The calls of part #{i + 1}."
  puts "pub(super) static RESULTS_#{i + 1}: [Case; #{slice.size}] = ["
  puts slice
  puts "];"
end
