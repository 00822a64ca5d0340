#!/usr/bin/env ruby
# Makes the tables of calls: a program and what it writes for each list of rows of this folder. It needs Ruby 3.1.
#
#   ruby scripts/calls/make.rb [NAME..]      writes examples/calls/NAME.rb and examples/calls/NAME.out
#
# NAME.rows has definitions, a line `---`, and rows, of which none needs another. A row is one expression; its result is
# the `inspect` of its value, or `CLASS: MESSAGE` of what it raises, and it is Ruby's. Where the language differs from
# Ruby, the row gives the result and says why: `EXPRESSION #: RESULT #: WHY`. A row with `%{A|B%}` stands for two rows,
# one with A and one with B.
#
# The status is 1 where a result that a row gives is Ruby's, too, where the text of an error is none of the language, or
# where a number in a result is past 64 bits.

FOLDER = __dir__
TARGET = File.join(FOLDER, "..", "..", "examples", "calls")
RUBY = ["ruby", "-W0", "--disable-all"].freeze
ERROR = /\A(?:[A-Z]\w*(?:Error|Exit|Iteration)|Exception): /.freeze
CLASS = /(?:[A-Z]\w*(?:::[A-Z]\w*)*|#<(?:Class|Module)>)/.freeze
NAME = /[^' ]+/.freeze

# The texts of errors that the language has. Those of a program's own `raise` are in OWN.
TEXTS = [
  /\ANoMethodError: (?:undefined|private|protected) method '#{NAME}' (?:called )?for #{CLASS}\z/,
  /\ANoMethodError: super: no superclass method '#{NAME}' for #{CLASS}\z/,
  /\ANoMethodError: super called outside of method\z/,
  /\ANameError: undefined local variable or method '#{NAME}' for #{CLASS}\z/,
  /\ANameError: uninitialized constant #{CLASS}\z/,
  /\ANameError: undefined method '#{NAME}' for class '#{CLASS}'\z/,
  /\AArgumentError: wrong number of arguments \(given \d+, expected \d+(?:\+|\.\.\d+)?\)\z/,
  /\AArgumentError: comparison of #{CLASS} with #{CLASS} failed\z/,
  /\AArgumentError: (?:negative exponent|no block given|comparison failed|bad value for range)\z/,
  /\AArgumentError: (?:invalid value for Integer|status out of range|array size too big|negative count)\z/,
  /\AArgumentError: (?:bad base|too few items)\z/,
  /\ATypeError: expected #{CLASS}, got #{CLASS}\z/,
  /\ATypeError: (?:class or module required for rescue clause|exception class or object expected)\z/,
  /\ATypeError: (?:superclass mismatch for class #{CLASS}|superclass must be a Class)\z/,
  /\ATypeError: #{CLASS} is not a (?:class|module)\z/,
  /\ATypeError: can't (?:define singleton|set instance variable)\z/,
  /\AIndexError: index -?\d+ out of range\z/,
  /\AKeyError: key not found: /,
  /\ARangeError: (?:integer overflow|string too long|-?\d+ out of char range)\z/,
  /\AZeroDivisionError: divided by 0\z/,
  /\ALocalJumpError: (?:unexpected return|break from proc-closure|no block given \(yield\))\z/,
  /\AFiberError: (?:dead fiber called|double resume|can't yield from root fiber)\z/,
  /\AStopIteration: iteration reached an end\z/,
  /\ASystemStackError: stack level too deep\z/,
  /\ASystemExit: exit\z/,
  /\ARuntimeError: unhandled exception\z/
].freeze
OWN = /\A\w+: own\b|\A(\w+): \1\z/.freeze

# One row: its expression, and the result and the reason where it isn't Ruby's.
Row = Struct.new(:text, :result, :why)

def expanded(line)
  found = line.match(/%\{(.*?)%\}/)
  return [line] unless found
  found[1].split("|", -1).flat_map { |part| expanded(found.pre_match + part + found.post_match) }
end

def rows(lines)
  lines.reject { |line| line.empty? || line.start_with?("# ") }.flat_map do |line|
    text, result, why = line.split(" #: ")
    abort "#{line}: a result and why, or neither" if result && !why
    expanded(text.strip).map { |one| Row.new(one, result, why) }
  end
end

def program(name, definitions, rows)
  calls = rows.each_with_index.map do |row, index|
    "row(#{index + 1}) { #{row.text} }" + (row.why ? " # not Ruby's: #{row.why}" : "")
  end
  <<~RUBY
    # encoding: binary
    # Calls with their results. Made by scripts/calls/make.rb of scripts/calls/#{name}.rows.
    #{definitions.join("\n").rstrip}

    def row(number)
      value = yield
      puts "\#{number} \#{value.inspect}"
    rescue Exception => error
      puts "\#{number} \#{error.class}: \#{error.message}"
    end

    #{calls.join("\n")}
  RUBY
end

# The lines that Ruby writes for each row: those that the row itself writes, and its result.
def results(path, count)
  lines = IO.popen([*RUBY, path, in: "/dev/null"], "rb", &:read).lines(chomp: true)
  (1..count).map do |number|
    size = lines.index { |line| line.start_with?("#{number} ") } or abort "#{path}: no result of row #{number}"
    lines.shift(size + 1)
  end
end

# What is wrong with a row's result in the language, given that in Ruby.
def faults(row, found)
  text = row.result || found
  known = !ERROR.match?(text) || OWN.match?(text) || TEXTS.any? { |one| one.match?(text) }
  wide = text.scan(/\d+/).any? { |digits| digits.to_i > 2**63 }
  [("so it is in Ruby" if row.result == found), ("no text of the language: #{text}" unless known),
   ("past 64 bits: #{text}" if wide)].compact.map { |fault| "#{row.text}: #{fault}" }
end

# The lines of a row in the language, by those in Ruby; what is wrong with it is added to the list.
def expected(number, row, lines, wrong)
  found = lines.last.delete_prefix("#{number} ")
  wrong.concat(faults(row, found))
  [*lines[0...-1], "#{number} #{row.result || found}"]
end

def make(name)
  definitions, lines = File.read(File.join(FOLDER, "#{name}.rows"), encoding: "BINARY").split("\n---\n", 2)
  rows = rows(lines.lines(chomp: true))
  path = File.join(TARGET, "#{name}.rb")
  File.binwrite(path, program(name, definitions.lines(chomp: true), rows))
  wrong = []
  written = results(path, rows.length).each_with_index.flat_map do |found, index|
    expected(index + 1, rows[index], found, wrong)
  end
  File.binwrite(File.join(TARGET, "#{name}.out"), written.join("\n") + "\n")
  puts "#{name}: #{rows.length} rows, #{rows.count(&:result)} not Ruby's", wrong
  wrong.empty?
end

names = ARGV.empty? ? Dir[File.join(FOLDER, "*.rows")].sort.map { |path| File.basename(path, ".rows") } : ARGV
exit names.map { |name| make(name) }.all?
