-- A million lines of output.
for i = 1, 1000000 do
  print(i, i * i)
end
