# Reads and prints data in the manner of JSON, compact and indented.
module Json
  class Error < StandardError; end

  QUOTES = { "\"" => "\\\"", "\\" => "\\\\", "\n" => "\\n", "\t" => "\\t", "\r" => "\\r" }
  BACK = { "n" => "\n", "t" => "\t", "r" => "\r", "b" => "\b", "f" => "\f" }

  class Printer
    def initialize(indent = nil)
      @indent = indent
    end

    def print_value(value, depth = 0)
      case value
      when nil then "null"
      when true, false, Integer then value.to_s
      when String, Symbol then quote(value.to_s)
      when Array
        wrap("[", value.map { |item| print_value(item, depth + 1) }, "]", depth)
      when Hash
        pairs = value.map do |key, item|
          "#{quote key.to_s}:#{" " if @indent}#{print_value item, depth + 1}"
        end
        wrap("{", pairs, "}", depth)
      else
        if value.respond_to?(:to_json)
          print_value value.to_json, depth
        else raise Error, "can't print #{value.class}" end
      end
    end

    private

    def wrap(open, parts, close, depth)
      return open + close if parts.empty?
      return open + parts.join(",") + close unless @indent
      inner = "\n" + @indent * (depth + 1)
      open + inner + parts.join("," + inner) + "\n" + @indent * depth + close
    end

    def quote(text)
      '"' + text.chars.map { |c| QUOTES[c] || c }.join + '"'
    end
  end

  class Reader
    def initialize text
      @text, @at = text, 0
    end

    def read
      value = value_here
      blank
      fail_with "more text" if @at < @text.size
      value
    end

    private

    def fail_with(what)
      raise Error, "#{what} at #{@at}"
    end

    def blank
      @at += 1 while [" ", "\n", "\t"].include?(@text[@at])
    end

    def value_here
      blank
      case char = @text[@at]
      when "{" then object
      when "[" then list
      when "\"" then string
      when "-", "0".."9" then number
      when "t" then word("true", true)
      when "f"; word("false", false)
      when "n"
        word "null", nil
      when nil then fail_with("no value")
      else fail_with "byte #{char.inspect}"
      end
    end

    def word(text, value)
      fail_with("no #{text}") unless @text[@at, text.size] == text
      @at += text.size
      value
    end

    def number
      start = @at
      @at += 1 if @text[@at] == "-"
      @at += 1 while ("0".."9") === @text[@at]
      @text[start...@at].to_i
    end

    def string
      result = ""
      until (char = @text[@at += 1]) == "\""
        fail_with("open string") if char.nil?
        if char == "\\"
          char = @text[@at += 1]
          if char == "u"
            char = @text[@at + 1, 4].to_i(16).chr
            @at += 4
          else
            char = BACK[char] || char
          end
        end
        result << char
      end
      @at += 1
      result
    end

    def items(close)
      @at += 1
      blank
      if @text[@at] == close
        @at += 1
        return
      end
      while true
        yield
        blank
        mark = @text[@at]
        @at += 1
        break if mark == close
        fail_with("no comma") if mark != ","
      end
    end

    def list
      result = []
      items("]") { result << value_here }
      result
    end

    def object
      result = {}
      items("}") do
        blank
        fail_with("no key") unless @text[@at] == "\""
        key = string
        blank
        word(":", nil)
        result[key] = value_here
      end
      result
    end
  end

  def self.print(value, indent = nil)
    Printer.new(indent).print_value(value)
  end

  def self.parse(text)
    Reader.new(text).read
  end
end

class Point
  def initialize(x, y) @x = x; @y = y end

  def to_json
    { x: @x, "y" => @y, :sum => @x + @y, }
  end
end

data = {
  "name" => "Larch \"tree\"",
  :tall => true,
  size: -12,
  tags: %w[a b],
  none: nil,
  empty: [{}, []],
  "point" => Point.new(1, 2),
  lines: "one\ntwo\t\\"
}
puts Json.print(data)
puts Json.print(data, "  ")
puts Json::print([1, a: 2, "b" => [3,],])

text = <<'JSON'
{"list": [1, -20, [true, false, null]], "s": "a\"b\\c\nd\u0041",
 "o": {"k": {}, "e": []}}
JSON
value = Json.parse text
p value
puts Json.print(value) == Json.print(Json.parse(Json.print(value, "\t")))
puts value["list"][2].map { |v| v.nil? ? "nil" : v.to_s }.join("/")

["[1, 2", "{\"a\" 1}", "[1 2]", "tru", "\"abc", "", "[] []", "{1: 2}", "?"].each do |bad|
  begin
    p Json.parse(bad)
  rescue Json::Error => error
    puts "#{bad.inspect}: #{error.message}"
  end
end
begin
  Json.print([Object.new])
rescue Json::Error
  puts "can't print it"
end

def depth_of(value)
  children = value.is_a?(Hash) ? value.values : value.is_a?(Array) ? value : (return 0)
  1 + (children.map { |child| depth_of child }.max || 0)
end

def paths(value, at = "", &block)
  case value
  when Hash then value.each { |key, item| paths item, "#{at}.#{key}", &block }
  when Array
    value.each_with_index { |item, i| paths(item, at + "[#{i}]", &block) }
  else block.call at, value
  end
end

puts depth_of(value), depth_of([])
paths(value) { |path, leaf| puts "#{path} = #{leaf.inspect}" }
