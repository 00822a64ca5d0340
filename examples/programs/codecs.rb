# Bytes as text and back: base 64, hexadecimal, addresses, and a dump.
B64 = [*"A".."Z", *"a".."z", *"0".."9", "+", "/"]
def enc64(s)
  out = ""
  s.bytes.each_slice(3) do |a, b, c|
    n = (a << 16) | ((b || 0) << 8) | (c || 0)
    q = [18, 12, 6, 0].map { |sh| B64[(n >> sh) & 63] }
    q[2] = "=" unless b
    q[3] = "=" if c.nil?
    out << q.join
  end
  out
end
def dec64(s)
  out = ""
  s.chars.each_slice(4) do |q|
    pad = q.count("=")
    n = q.inject(0) { |m, ch| (m << 6) | (ch == "=" ? 0 : B64.index(ch)) }
    bs = [16, 8, 0].map { |sh| (n >> sh) & 255 }
    out << bs.first(3 - pad).map { |b| b.chr }.join
  end
  out
end
["", "f", "fo", "foo", "foob", "fooba", "foobar", "Man is distinguished"].each do |s|
  e = enc64(s)
  puts "#{s.inspect} -> #{e} -> #{dec64(e) == s}"
end
def hex(s) s.bytes.map { |b| b.to_s(16).rjust(2, "0") }.join(" ") end
def unhex(h) h.split.map { |x| x.to_i(16).chr }.join end
puts hex("Hi!\n"), unhex("48 69 21"), unhex(hex("round trip")) == "round trip"
SAFE = [*"a".."z", *"A".."Z", *"0".."9", *%w[- _ . ~]]
def url(s) s.chars.map { |c| SAFE.include?(c) ? c : c.bytes.map { |b| "%" + b.to_s(16).upcase.rjust(2, "0") }.join }.join end
def unurl(s)
  r, i = "", 0
  while i < s.length
    if s[i] == "%" then r << s[i + 1, 2].to_i(16).chr; i += 3
    else r << s[i]; i += 1 end
  end
  r
end
puts url("a b&c=d/e?é"), unurl(url("100% sure?"))
def dump(s)
  off = 0
  s.bytes.each_slice(8) do |row|
    puts "#{off.to_s(16).rjust(4, "0")}  #{row.map { |b| b.to_s(16).rjust(2, "0") }.join(" ").ljust(23)}  |#{row.map { |b| b.between?(32, 126) ? b.chr : "." }.join}|"
    off += row.length
  end
end
dump("Hello,\tWorld!\x00\x01 end")
