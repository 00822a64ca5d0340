# Lines that end with a carriage return and a newline
=begin
a comment
=end
p "one
two"
p 'three
four'
text = <<A + <<-'B'
five
six
A
seven
  B
p text
p 1 +
  2
p 3 \
  + 4
p %w[a
b]
p "a\
b"
p :"c
d"
p "\r\n"
puts [1, 2].map { |x|
  x * 2
}.join(" ")
__END__
not read
