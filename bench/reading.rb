# The answers of Ruby to bench/reading.py, many in one process. Not part of the tests.
#
#   ruby bench/reading.rb tokens FILE..    the tokens of each file, as a list of pairs of kind and text
#   ruby bench/reading.rb errors           what Ruby says against each text of the list on the input, null where it reads it
#
# Lists are written and read as JSON, one answer a line. Nothing is run: the texts are compiled.
require "json"
require "ripper"

$VERBOSE = nil
$stdout.sync = true

def tokens(path)
  text = File.read(path, encoding: "UTF-8")
  return nil unless text.valid_encoding?
  Ripper.lex(text).map { |_, kind, part, _| [kind.to_s.delete_prefix("on_"), part] }
end

# The first line of the error, without its place.
def error_of(text)
  RubyVM::InstructionSequence.compile(text)
  nil
rescue SyntaxError => error
  error.message.lines.first.chomp.sub(/\A<compiled>:\d+: /, "")
rescue EncodingError, ArgumentError => error
  error.message
end

case ARGV.shift
when "tokens"
  ARGV.each { |path| puts JSON.generate(tokens(path)) }
when "errors"
  JSON.parse($stdin.read).each { |text| puts JSON.generate(error_of(text)) }
end
