# Strings that grow, and are cut and compared.
text = ""
i = 0
while i < 300_000
  text << "item " << i.to_s << "\n"
  i += 1
end
sum = 0
text.split("\n").each { |line| sum += line.length if line[5, 1] == "7" }
puts text.length, sum
