# Prints the table of crates/rows_tests/src/calls/results.rt: calls of methods of Array, Hash and Range with what CRuby
# gives, and the receiver afterwards. Values are written without commas: [1 'a' n] is [1, "a", nil], {1 2} is {1=>2},
# (1 3) is 1..3, <1 3> is 1...3, t is true and f is false.

def shown(value)
  case value
  when nil then "n"
  when true then "t"
  when false then "f"
  when Integer then value.to_s
  when String then "'#{value}'"
  when Array then "[#{value.map { |item| shown(item) }.join(" ")}]"
  when Hash then "{#{value.flat_map { |key, item| [shown(key), shown(item)] }.join(" ")}}"
  when Range
    ends = "#{shown(value.begin)} #{shown(value.end)}"
    value.exclude_end? ? "<#{ends}>" : "(#{ends})"
  end
end

CALLS = [
  [[5, 6, 7], :[], 0], [[5, 6, 7], :[], -1], [[5, 6, 7], :[], 3], [[5, 6, 7], :[], -4],
  [[5, 6, 7], :[], 1, 2], [[5, 6, 7], :[], 3, 1], [[5, 6, 7], :[], 4, 1], [[5, 6, 7], :slice, 1, -1],
  [[5, 6, 7], :[], 1..2], [[5, 6, 7], :[], -2..-1], [[5, 6, 7], :[], 0...-1], [[5, 6, 7], :[], 2..0],
  [[5, 6, 7], :[], 3..5], [[5, 6, 7], :[], 4..5], [[5, 6, 7], :at, -2], [[5, 6, 7], :values_at, 0, -1, 9],
  [[5], :[]=, 3, 8], [[5, 6], :[]=, -2, 1], [[5, 6, 7, 8], :[]=, 1, 2, ["a"]], [[5], :[]=, 3, 0, [1, 2]],
  [[5, 6, 7], :[]=, 1, 9, []], [[5, 6, 7], :first], [[5, 6, 7], :first, 2], [[], :first], [[5, 6, 7], :last],
  [[5, 6, 7], :last, 2], [[], :last], [[5], :last, 4], [[1], :push, 2, 3], [[1], :append, 2], [[1], :<<, [2]],
  [[1, 2], :pop], [[], :pop], [[1, 2, 3], :pop, 2], [[1, 2], :shift], [[], :shift], [[1, 2, 3], :shift, 2],
  [[1], :unshift, 2, 3], [[1, 2], :insert, 1, 8, 9], [[1, 2], :insert, -1, 8],
  [[1, 2], :insert, -2, 8], [[1], :insert, 3, 8], [[1], :concat, [2], [3, 4]], [[1], :+, [2]],
  [[1, 2], :length], [[], :size], [[], :empty?], [[1], :empty?], [[1, 2, 3], :delete_at, 1], [[1, 2], :delete_at, -1],
  [[1], :delete_at, 1], [[1, 2, 3], :reverse], [[1, 2, 3], :reverse!], [[1, 2, 3], :rotate], [[1, 2, 3], :rotate, -1],
  [[1, 2, 3], :rotate, 7], [[], :rotate, 2], [[1, [2, [3, []]], [[4]]], :flatten], [[nil, 1, false, nil], :compact],
  [[[1, 2], [3, 4], [5, 6]], :transpose], [[], :transpose], [[1, 2], :fill, "x"], [[1, 2], :clear],
  [[1, 2], :replace, [3]], [[3, 1, 2], :sort!], [[1, 2], :to_a], [[1, 2], :entries],
  [[1, 2, 3], :take, 2], [[1, 2, 3], :take, 9], [[1, 2, 3], :drop, 2], [[1, 2, 3], :drop, 9],
  [[3, 1, 2, 1], :sort], [["b", "a", "ab", ""], :sort], [[[2, "a"], [1, "b"], [1], [1, "a"]], :sort], [[], :sort],
  [[[1, [2]], [1, [1, 5]]], :min], [[3, 1, 2], :min], [[3, 1, 2], :max], [["b", "a"], :max], [[], :min],
  [[1, "a", 1, "a", [1], [1], nil, nil], :uniq], [["a", "b", "a"], :tally], [[], :tally],
  [[1, 2, 3], :zip, [4, 5]], [[1], :zip, [2], [3]], [{ 1 => 2 }, :[]=, 1, 3], [{ 1 => 2 }, :store, "k", 4],
  [{ "a" => 1 }, :key?, "a"], [{ [1] => 1 }, :has_key?, [1]], [{ 1 => 2 }, :include?, 2], [{ nil => 2 }, :member?, nil],
  [{ 1 => 2, 3 => 4 }, :keys], [{ 1 => 2, 3 => 4 }, :values], [{ 1 => 2 }, :length], [{}, :size], [{}, :empty?],
  [{ 1 => 2, 3 => 4 }, :delete, 1], [{ 1 => 2 }, :delete, 9], [{ 1 => 2, 3 => 4 }, :merge, { 3 => 5, 6 => 7 }],
  [{ 1 => 2 }, :merge!, { 1 => 3 }], [{ 1 => 2 }, :update, { 4 => 5 }], [{ 1 => 2, 3 => 2 }, :invert],
  [{ 1 => 2, "a" => 3 }, :clear], [{}, :default], [{}, :default=, 5], [{ 1 => 2 }, :to_h],
  [{ 1 => 2, 3 => 4 }, :to_a], [{ 1 => 2 }, :entries], [{ 1 => 2, 3 => 4 }, :first], [{ 1 => 2, 3 => 4 }, :first, 1],
  [{ 1 => 2, 3 => 4 }, :drop, 1], [{ 3 => 1, 2 => 4 }, :min], [{ 3 => 1, 2 => 4 }, :sort], [{ 1 => 2 }, :zip, [8]],
  [{ 1 => 2 }, :tally], [1..4, :to_a], [1...4, :entries], [4..1, :to_a], ["a".."c", :to_a], [1..9, :take, 2],
  [1..4, :drop, 3], [1...4, :max], [1..4, :min], [4..1, :max], ["a".."c", :max], [1..2, :zip, [3, 4]],
  [1..2, :tally], [1..3, :sort], [1..2, :uniq],
]

puts "//! Calls of methods of Array, Hash and Range with what CRuby 3.1 gives: printed by bench/list_rows.rb."
puts "use super::Case;"
CALLS.each_slice(45).with_index(1) do |calls, part|
  puts
  puts "/// The calls of part #{part}."
  puts "pub(super) static RESULTS_#{part}: [Case; #{calls.length}] = ["
  calls.each do |receiver, name, *args|
    before = shown(receiver)
    given = args.map { |arg| shown(arg) }.join(" ")
    result = receiver.send(name, *args)
    puts "    (b\"#{before}\", b\"#{name}\", b\"#{given}\", b\"#{shown(result)}\", b\"#{shown(receiver)}\"),"
  end
  puts "];"
end
