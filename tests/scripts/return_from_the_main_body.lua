-- Nothing follows a `return` of the main body, and its values are dropped.
print("before")
do return 1, 2, 3 end
print("after")
