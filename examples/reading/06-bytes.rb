# Control and meta escapes are one byte.
p "\C-a".bytes
p "\ca".bytes
p "\c?".bytes
p "\C-?".bytes
p "\M-a".bytes
p "\M-\C-a".bytes
p "\C-\M-a".bytes
p "x\cay".bytes
